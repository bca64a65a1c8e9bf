// What a person types finds flights, stands and types.

import assert from "node:assert/strict";
import { test } from "node:test";
import { found } from "../search.js";
import { at, demo, part, planOf, visit } from "./plans.mjs";

const plan = planOf(
  visit(1, "A320", [part(600, 660)], { arr: { day: 1, flight: "LH1626" }, dep: { day: 1, flight: "EI154" } }),
  visit(2, "A320", [part(2040, 2100)], { arr: { day: 2, flight: "LH1626" } }),
  visit(3, "B738", [part(700, 760)], { dep: { day: 1, flight: "LH16" } }),
  visit(4, "B738", [part(600, 640), part(660, 700)], { name: "VIP-7" }),
);
const told = (text, now = 600) => found(demo, plan, text, now).map((it) => `${it.kind} ${it.visit === undefined ? it.words : `${it.visit}.${it.part}`}`);

test("a flight is found by its name, its beginning or its number, however it is typed", () => {
  for (const text of ["LH1626", "lh 1626", " LH1626 ", "1626"]) assert.deepEqual(told(text), ["flight 1.1", "flight 2.1"], text);
  assert.deepEqual(told("LH1626", 2000), ["flight 2.1", "flight 1.1"]);
  for (const text of ["LH16", "LH0016"]) assert.deepEqual(told(text), ["flight 3.1", "flight 1.1", "flight 2.1"], text);
  assert.deepEqual(told("EI154/"), ["flight 1.1"]);
  assert.deepEqual(told("vip"), ["flight 4.1"]);
  assert.deepEqual(told("VIP-7", 650), ["flight 4.2"]);
});

test("stands and types are found alike", () => {
  assert.deepEqual(told("n1"), ["stand N1"]);
  assert.equal(found(demo, plan, "12L", 0)[0].stand, at("12L"));
  assert.deepEqual(told("12"), ["stand 12", "stand 12L", "stand 12R"]);
  assert.deepEqual(told("B7"), ["type B738", "type B77W", "type B779"]);
});

test("nothing is found where nothing is", () => {
  assert.deepEqual([told("XX99"), told(""), told("  ")], [[], [], []]);
  assert.equal(found(demo, plan, "1", 600, 3).length, 3);
});
