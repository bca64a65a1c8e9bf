// A stand closed and opened.

import assert from "node:assert/strict";
import { readFileSync } from "node:fs";
import { test } from "node:test";
import { closing, closureTypes, isClosure, opening } from "../closures.js";
import { judge } from "../draft.js";
import { at, demo, part, planOf, present, visit } from "./plans.mjs";

const closed = (number, from, to, on, more = {}) => visit(number, "B190", [part(from, to, on)], { name: `CLOSED-${number}`, class: 0, ...more });
const wanted = { stand: "N1", from: 600, to: 720, type: "B190" };

test("a stand is closed by a visit of class 0 with a number of its own, and a draft that puts it there", () => {
  const plan = planOf(closed(4, 100, 200, "N1"), visit(5, "A320", [part(700, 760, "N1")]), visit(6, "A320", [part(800, 860, "N1")]));
  const made = closing(demo, plan, wanted);
  assert.deepEqual(made.visit, { name: "CLOSED-5", type: "B190", class: 0, on: 600, off: 720, arr: null, dep: null });
  assert.deepEqual(made.inTheWay, [{ visit: 5, part: 1, minute: 700, rule: "same" }]);
  assert.deepEqual(made.edits(7), [{ lift: { visit: 5, part: 1 } }, { put: { visit: 7, part: 1, stand: "N1" } }]);
  const added = new Map(plan).set(7, visit(7, "B190", [part(600, 720)], { name: "CLOSED-5", class: 0 }));
  assert.equal(judge(demo, added, made.edits(7)), null);
});

test("a name that turns out to be taken is followed by a greater number", () => {
  const names = [0, 1, 2, 3].map((tried) => closing(demo, new Map(), { ...wanted, tried }).name);
  assert.deepEqual(names, ["CLOSED-1", "CLOSED-2", "CLOSED-4", "CLOSED-8"]);
  assert.match(closing(demo, planOf(closed(99999, 0, 100, null)), wanted).refused, /used up/);
  assert.ok(closing(demo, planOf(closed(99998, 0, 100, null)), wanted).name.length <= 12);
});

test("what can't be closed says why", () => {
  const rows = [
    [{ stand: "Z9" }, /no stand Z9/], [{ type: "ZZZ" }, /no type ZZZ/], [{ type: "B77W" }, /does not fit N1/], [{ to: 610 }, /20 minutes at least/],
    [{ from: 4300, to: 4400 }, /not lie in the plan/],
  ];
  for (const [more, why] of rows) assert.match(closing(demo, new Map(), { ...wanted, ...more }).refused, why);
  assert.match(closing(demo, planOf(present(1, "A320", 500, 650, "N1")), wanted).refused, /V1 is in place on N1/);
  assert.match(closing(demo, planOf(closed(3, 650, 700, "N1")), wanted).refused, /N1 is closed already by CLOSED-3/);
});

test("a closure is opened by a cancel", () => {
  const it = closed(4, 600, 720, "N1");
  assert.deepEqual(opening(it), { cancel: { visit: 4 } });
  assert.match(opening({ ...it, state: "cancelled" }).refused, /open again already/);
  assert.match(opening({ ...it, state: "onblock" }).refused, /reported on block/);
  assert.match(opening(visit(1, "A320", [part(600, 660)])).refused, /no closure/);
});

// trials/plan-holds tries the planner with the same names and priorities.
test("closures are known by name and class", () => {
  const rows = JSON.parse(readFileSync(new URL("closures.json", import.meta.url), "utf8"));
  for (const [name, priority, is] of rows) {
    assert.equal(isClosure(visit(1, "B190", [part(600, 720)], { name, class: priority })), is, `${name} of priority ${priority}`);
  }
});

test("the types that close a stand begin with the narrowest", () => {
  assert.deepEqual(closureTypes(demo, at("N1")).map(({ name }) => name), ["B190", "AT76", "B738", "A320"]);
  assert.deepEqual(closureTypes(demo).map(({ name }) => name)[0], "B190");
  assert.ok(!closureTypes(demo).some(({ name }) => name === "B77W"));
});
