// What shuts a stand out while nobody is on it.

import assert from "node:assert/strict";
import { test } from "node:test";
import { indexOf, modelOf } from "../rules.js";
import { shadowsOf } from "../shadows.js";
import { DEMO, demo, part, present, visit } from "./plans.mjs";

const told = (model, visits, name, begin = 0, end = 1440) => shadowsOf(model, indexOf(model, visits), model.standOf.get(name), begin, end)
  .map(({ from, end: to, visit: number, rule, whole, letter }) => [from, to, number, rule, whole, letter]);

test("a half in use shuts out the whole, and the whole its halves", () => {
  const half = [visit(1, "AT76", [part(600, 660, "12L")])];
  assert.deepEqual(told(demo, half, "12"), [[600, 670, 1, "split", true, "B"]]);
  assert.deepEqual(told(demo, half, "12R"), [[600, 670, 1, "clearance", false, "C"]]);
  assert.deepEqual(told(demo, [visit(1, "B77W", [part(600, 660, "12")])], "12L"), [[600, 670, 1, "split", true, "B"]]);
});

test("a wide wing shuts out a neighbour, and a pair those of some letters", () => {
  const wide = [present(1, "B77W", 600, 660, "N2")];
  assert.deepEqual(told(demo, wide, "N1"), [[600, 670, 1, "clearance", true, "B"]]);
  assert.deepEqual(told(demo, [visit(1, "A320", [part(600, 660, "N1")])], "N2"), []);
  assert.deepEqual(told(demo, [visit(1, "B77W", [part(600, 660, "14")])], "15"), [[600, 670, 1, "pair", false, "C"]]);
  assert.deepEqual(told(demo, wide, "N2"), []);
});

test("folded wing tips shut out fewer, minute by minute", () => {
  const model = modelOf({ ...DEMO, pairs: [{ a: "14", b: "15", la: "F", lb: "C" }] });
  assert.deepEqual(told(model, [visit(1, "B779", [part(600, 800, "14")])], "15"), [[600, 605, 1, "pair", false, "C"], [795, 810, 1, "pair", false, "C"]]);
});

test("only shadows of the minutes in sight are told", () => {
  const half = [visit(1, "AT76", [part(600, 660, "12L")]), visit(2, "AT76", [part(700, 760, "12R")])];
  assert.deepEqual(told(demo, half, "12").map(([from]) => from), [600, 700]);
  assert.deepEqual(told(demo, half, "12", 670, 700), []);
});
