// Scheduled, expected and actual times of a visit.

import assert from "node:assert/strict";
import { test } from "node:test";
import { delayBand, delayWords, delaysOf, ghostOf, timesOf } from "../delays.js";
import { part, present, visit } from "./plans.mjs";

test("a delay is the minutes between the scheduled time and the one that is expected, or was in fact", () => {
  const late = visit(1, "A320", [part(645, 685, "N1")], { on: 600, off: 660 });
  assert.deepEqual(timesOf(late, 500).on, { scheduled: 600, time: 645, actual: false, delay: 45 });
  assert.deepEqual(timesOf(late, 500).off, { scheduled: 660, time: 685, actual: false, delay: 25 });
  assert.equal(timesOf(late, 500).shorter, 20);
  const here = present(2, "A320", 590, 660, "N1", { on: 600 });
  assert.deepEqual([timesOf(here, 600).on.actual, timesOf(here, 600).on.delay, timesOf(here, 600).off.actual, timesOf(here, 600).shorter], [true, -10, false, 0]);
  const gone = { ...here, state: "gone" };
  assert.deepEqual([timesOf(gone, 700).off.actual, timesOf(gone, 700).overdue], [true, null]);
});

test("what should have happened by now is told", () => {
  const towed = present(1, "A320", 600, 650, "N1");
  towed.parts.push(part(670, 720, "S1"));
  const rows = [
    [visit(1, "A320", [part(600, 660)]), 600, null, null], [visit(1, "A320", [part(600, 660)]), 601, { part: 1, minutes: 1, kind: "arrival" }, null],
    [visit(1, "A320", [part(600, 660)], { state: "cancelled" }), 700, null, null], [present(1, "A320", 600, 660, "N1"), 660, null, null],
    [present(1, "A320", 600, 660, "N1"), 675, null, { part: 1, minutes: 15 }], [towed, 690, { part: 2, minutes: 20, kind: "tow" }, { part: 1, minutes: 40 }],
    [visit(1, "A320", [part(600, 660)], { state: "onblock" }), 650, null, null], [{ ...towed, state: "gone" }, 690, null, null],
  ];
  for (const [it, now, late, overdue] of rows) assert.deepEqual([timesOf(it, now).late, timesOf(it, now).overdue], [late, overdue]);
});

test("the old place of a part is that of the schedule", () => {
  const two = visit(1, "A320", [part(645, 685), part(705, 745)], { on: 600, off: 700 });
  assert.deepEqual([ghostOf(two, 1), ghostOf(two, 2)], [{ from: 600, to: 685 }, null]);
  assert.deepEqual(ghostOf(visit(1, "A320", [part(645, 685)], { on: 600, off: 660 }), 1), { from: 600, to: 660 });
  assert.equal(ghostOf(visit(1, "A320", [part(600, 660)]), 1), null);
  assert.deepEqual([delaysOf(two, 1), delaysOf(two, 2)], [{ begin: 45, end: 0 }, { begin: 0, end: 45 }]);
});

test("a delay has a band and words", () => {
  const rows = [[-6, "early", "−6"], [-5, "ontime", "−5"], [0, "ontime", ""], [5, "ontime", "+5"], [6, "late", "+6"], [30, "late", "+30"], [31, "verylate", "+31"]];
  for (const [delay, band, words] of rows) assert.deepEqual([delayBand(delay), delayWords(delay)], [band, words]);
});
