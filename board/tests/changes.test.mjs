// What changed between two pictures: like is compared with like.

import assert from "node:assert/strict";
import { test } from "node:test";
import { changeLine, changeWords, changesOf } from "../changes.js";
import { demo, part, planOf, present, visit } from "./plans.mjs";

const picture = (version, days, ...visits) => ({ version, covers: new Set(days), visits: planOf(...visits) });
const told = (before, after, known) => changesOf(demo, before, after, known).map(({ kind, part: of, visit: number }) => `${kind} ${number}.${of}`);
const when = (minute) => `${Math.floor(minute / 60)}:${String(minute % 60).padStart(2, "0")}`;

test("a day that is read besides makes nothing new, and one that is let go ends nothing", () => {
  const stop = visit(1, "A320", [part(1300, 2000, "N1")]);
  const tomorrow = visit(2, "A320", [part(1600, 1700, "N2")]);
  const other = visit(3, "A320", [part(600, 660, "N2")]);
  assert.deepEqual(told(picture(5, [1], stop, other), picture(5, [1, 2], stop, other, tomorrow)), []);
  assert.deepEqual(told(picture(5, [1, 2], stop, other, tomorrow), picture(6, [1], stop, other)), []);
  assert.deepEqual(told(picture(5, [1], other), picture(6, [2], stop, tomorrow)), []);
});

test("a visit that the days had not is new, or comes into them from another day", () => {
  const fresh = visit(4, "A320", [part(600, 660)]);
  const late = visit(5, "A320", [part(1500, 1560)], { on: 1300, off: 1360 });
  assert.deepEqual(told(picture(5, [1, 2]), picture(6, [1, 2], fresh, late)), ["new 4.1", "here 5.1"]);
  assert.deepEqual(told(picture(5, [2]), picture(6, [1, 2], fresh)), []);
  assert.deepEqual(told(picture(5, [1]), picture(6, [1], { ...late, parts: [part(600, 700)], on: 600 }, fresh)), ["new 4.1", "here 5.1"]);
});

test("a visit that the days no longer have is cancelled or away, by what is known of it", () => {
  const was = visit(4, "A320", [part(600, 660, "N1")]);
  const before = picture(5, [1], was);
  assert.deepEqual(told(before, picture(6, [1])), ["vanished 4.1"]);
  assert.deepEqual(told(before, picture(6, [1]), planOf({ ...was, state: "cancelled", parts: [part(600, 660)] })), ["cancelled 4.1"]);
  assert.deepEqual(told(before, picture(6, [1]), planOf({ ...was, parts: [part(1500, 1560)] })), ["away 4.1"]);
});

test("what changed of a visit is told part by part", () => {
  const bump = { blocker: { part: 1, visit: 9 }, entry: 6, minute: 600, rule: "same", stand: "N1" };
  const on = visit(1, "A320", [part(600, 660, "N1")]);
  const off = visit(1, "A320", [part(600, 660)]);
  const cut = visit(1, "A320", [part(600, 640, "N1"), part(660, 720, "N2")], { off: 720 });
  const here = present(1, "A320", 605, 660, "N2");
  const rows = [
    [on, off, "lifted 1.1"], [off, on, "put 1.1"], [on, visit(1, "A320", [part(600, 660, "N2")]), "moved 1.1"],
    [on, visit(1, "A320", [part(600, 660, null, { bump })]), "lost 1.1"], [on, visit(1, "A320", [part(645, 685, "N1")]), "times 1.1"],
    [on, visit(1, "A320", [part(600, 685, "N1")]), "times 1.1"],
    [on, visit(1, "A320", [part(645, 685, null, { bump })]), "lost 1.1, times 1.1"], [on, here, "onblock 1.1"],
    [here, { ...here, state: "gone", parts: [part(605, 671, "N2", { actual: true })] }, "gone 1.1"], [on, on, ""],
    [off, { ...off, state: "onblock" }, "onblock 1.1"], [visit(1, "A320", [part(600, 720, "N1")]), cut, "cut 1.2"],
    [cut, visit(1, "A320", [part(600, 720, "N1")]), "joined 1.1"], [on, { ...on, edited: 6 }, ""],
    [{ ...cut, state: "onblock", parts: [part(600, 640, "N1", { actual: true }), part(660, 720, "N2")] },
      { ...cut, state: "onblock", parts: [part(600, 640, "N1", { actual: true }), part(660, 720, "N2", { actual: true })] }, "inplace 1.2"],
  ];
  for (const [before, after, wanted] of rows) assert.equal(told(picture(5, [1], before), picture(6, [1], after)).join(", "), wanted);
});

test("a change reads as a line, with its version", () => {
  const bump = { blocker: { part: 1, visit: 9 }, entry: 6, minute: 600, rule: "same", stand: "N1" };
  const before = picture(5, [1], visit(1, "A320", [part(600, 660, "N1")], { arr: { day: 1, flight: "LH1" } }), visit(2, "A320", [part(600, 660, "N2")]));
  const after = picture(6, [1], visit(1, "A320", [part(600, 660, null, { bump })], { arr: { day: 1, flight: "LH1" } }), present(2, "A320", 605, 660, "S1"));
  const changes = changesOf(demo, before, after);
  assert.deepEqual(changes.map((it) => changeLine(it, when)), ["LH1 A320: lost N1", "V2 A320: on block at 10:05 on S1, planned on N2"]);
  assert.ok(changes.every(({ version }) => version === 6));
});

test("an aircraft on block without a plan, or on its planned stand, is not said to be elsewhere", () => {
  const now = part(645, 700, "N2");
  const rows = [[part(600, 660, "N2"), "on block at 10:45 on N2"], [part(600, 660), "on block at 10:45 on N2"], [part(600, 660, "N1"), "on block at 10:45 on N2, planned on N1"]];
  for (const [was, words] of rows) assert.equal(changeWords({ kind: "onblock", now, was }, when), words);
  assert.equal(changeWords({ kind: "onblock", now: part(645, 700), was: part(600, 660) }, when), "on block at 10:45 without a stand");
  const [gone] = changesOf(demo, picture(5, [1], present(1, "A320", 600, 660, "N1")), picture(6, [1], present(1, "A320", 600, 671, "N1", { state: "gone" })));
  assert.deepEqual([gone.was.to, gone.now.to], [660, 671]);
});

test("each kind of change has words", () => {
  const now = part(645, 700, "N2");
  const was = part(600, 660, "N1");
  const rows = [["new", "new, 10:45–11:40"], ["here", "comes into these days, 10:45–11:40"], ["away", "now at 10:45–11:40"], ["vanished", "cancelled, or moved to another day"],
    ["cancelled", "cancelled"], ["gone", "off block at 11:40"], ["inplace", "in place at 10:45 on N2, planned on N1"], ["put", "put on N2"], ["moved", "N1 → N2"],
    ["lifted", "taken off N1"], ["times", "10:00–11:00 → 10:45–11:40"], ["cut", "10:45–11:40 is a part of its own"], ["joined", "merged with its next part"]];
  for (const [kind, words] of rows) assert.equal(changeWords({ kind, now, was }, when), words);
});
