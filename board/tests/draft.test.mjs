// Drafts: what they need, what is said of them, and whether a 200 is about them.

import assert from "node:assert/strict";
import { test } from "node:test";
import { baseOf, folded, judge, judgeDraft, keptOf, lookAgain, needsOf, overtakenOf, sentOf, takenOf } from "../draft.js";
import { modelOf } from "../rules.js";
import { isListed, visitsAfter } from "../visits.js";
import { DEMO, demo, part, planOf, present, visit } from "./plans.mjs";

const put = (number, of, stand) => ({ put: { visit: number, part: of, stand } });
const lift = (number, of) => ({ lift: { visit: number, part: of } });
const keptIn = (visits, ...edits) => edits.map((edit) => keptOf(demo, visits, edit));

test("two aircraft change places in one draft", () => {
  const plan = planOf(visit(1, "A320", [part(600, 660, "N1")]), visit(2, "A320", [part(600, 660, "S1")]));
  assert.equal(judge(demo, plan, [put(1, 1, "S1"), put(2, 1, "N1")]), null);
  assert.deepEqual(judge(demo, plan, [put(1, 1, "S1")]), { error: "clash", a: { part: 1, visit: 1 }, b: { part: 1, visit: 2 }, minute: 600, rule: "same" });
  assert.deepEqual(judge(demo, plan, [put(1, 1, "S1"), lift(9, 1)]), { edit: 2, error: "unknown" });
});

test("a draft of ten days keeps its days over a reload, and is judged when they are all read", () => {
  const model = modelOf({ ...DEMO, days: 12 });
  const whole = planOf(...[...Array(10).keys()].map((day) => visit(day + 1, "A320", [part(day * 1440 + 600, day * 1440 + 660)])));
  const kept = JSON.parse(JSON.stringify([...whole.keys()].map((number) => keptOf(model, whole, put(number, 1, "N1")))));
  assert.equal(kept[4].name, "V5");
  const covers = new Set([2]);
  const visits = planOf(whole.get(2));
  assert.deepEqual(needsOf(model, visits, covers, kept), { days: [1, 3, 4, 5, 6, 7, 8, 9, 10], visits: [] });
  assert.equal(judgeDraft(model, visits, covers, kept).is, "waits");
  for (const day of [1, 3, 4, 5, 6, 7, 8, 9, 10]) {
    covers.add(day);
    for (const it of [...whole.values()].filter((one) => isListed(model, one, day))) visits.set(it.visit, it);
  }
  assert.deepEqual(judgeDraft(model, visits, covers, kept), { is: "fits" });
  assert.deepEqual(judgeDraft(model, visits, covers, []), { is: "empty" });
});

test("a visit that was moved to another day is asked for by its number, and then its new days", () => {
  const kept = keptIn(planOf(visit(1, "A320", [part(600, 660)])), put(1, 1, "N1"));
  assert.deepEqual(needsOf(demo, new Map(), new Set([1]), kept), { days: [], visits: [1] });
  const moved = planOf(visit(1, "A320", [part(1500, 1560)]));
  assert.deepEqual(needsOf(demo, moved, new Set([1]), kept), { days: [2], visits: [] });
  assert.equal(judgeDraft(demo, moved, new Set([1]), kept).is, "waits");
});

test("looking again names what is dropped, and drops nothing that is not read", () => {
  const before = planOf(visit(1, "A320", [part(600, 700)]), visit(2, "A320", [part(2000, 2100)]), visit(3, "A320", [part(600, 640), part(660, 700)]));
  const kept = keptIn(before, put(1, 1, "N1"), put(2, 1, "N2"), { join: { visit: 3, part: 1 } }, put(3, 1, "S1"));
  const now = planOf(present(1, "A320", 600, 700, "S5"), visit(3, "A320", [part(600, 700)]));
  const again = lookAgain(demo, now, kept);
  assert.deepEqual(again.dropped.map((it) => [it.kept.name, it.error]), [["V1", "onblock"], ["V3", "join"]]);
  assert.deepEqual(again.kept.map((it) => it.edit), [put(2, 1, "N2"), put(3, 1, "S1")]);
});

test("edits that a later one makes vain are folded away", () => {
  const cut = { cut: { visit: 1, part: 1, at: 640 } };
  const rows = [
    [[put(1, 1, "N1"), put(1, 1, "N2")], [put(1, 1, "N2")]], [[put(1, 1, "N1"), put(2, 1, "N1"), lift(1, 1)], [put(2, 1, "N1"), lift(1, 1)]],
    [[put(1, 1, "N1"), cut, put(1, 1, "N2")], [put(1, 1, "N1"), cut, put(1, 1, "N2")]], [[put(1, 1, "N1"), put(1, 2, "N2")], [put(1, 1, "N1"), put(1, 2, "N2")]],
    [[put(1, 1, "N1"), cut, put(2, 1, "S1"), put(2, 1, "S2")], [put(1, 1, "N1"), cut, put(2, 1, "S2")]],
  ];
  for (const [edits, wanted] of rows) assert.deepEqual(folded(edits.map((edit) => ({ edit }))), wanted.map((edit) => ({ edit })));
});

test("the base rises while nothing of the draft was edited by others", () => {
  const plan = planOf(visit(1, "A320", [part(600, 660)], { edited: 4 }), visit(2, "A320", [part(600, 660)]));
  const kept = keptIn(plan, put(1, 1, "N1"), put(2, 1, "N2"));
  assert.deepEqual([baseOf(plan, kept, 4, 9), overtakenOf(plan, kept, 4)], [9, null]);
  assert.deepEqual([baseOf(plan, kept, 3, 9), overtakenOf(plan, kept, 3).visit], [3, 1]);
  plan.delete(2);
  assert.equal(baseOf(plan, kept, 4, 9), 4);
});

test("a 200 is compared with what was sent", () => {
  const plan = planOf(visit(1, "A320", [part(600, 700)]), visit(2, "A320", [part(600, 660)]));
  const edits = [put(1, 1, "N1")];
  const sent = sentOf(demo, plan, "ANNA-A", 3, 5, edits);
  assert.deepEqual(JSON.parse(sent.body), { desk: "ANNA-A", draft: 3, base: 5, edits });
  const entry = { kind: "commit", desk: "ANNA-A" };
  const asSent = { ...visitsAfter(demo, plan, edits).changed.get(1), edited: 6 };
  const told = (version, visit1, of = entry) => takenOf(sent, version, planOf(visit1), of).is;
  assert.equal(told(6, asSent), "taken");
  assert.equal(told(6, asSent, null), "taken");
  assert.equal(told(5, asSent), "other");
  assert.equal(told(6, { ...asSent, edited: 4 }), "other");
  assert.equal(told(6, { ...asSent, parts: [part(600, 700, "N2")] }), "other");
  assert.equal(told(6, asSent, { kind: "commit", desk: "BERT-B" }), "other");
  assert.equal(told(6, asSent, { kind: "report", desk: "-" }), "other");
  assert.equal(told(6, { ...asSent, edited: 8 }), "unsure");
  assert.equal(takenOf(sent, 6, new Map(), entry).is, "unsure");
  const bump = { blocker: { part: 1, visit: 2 }, entry: 7, minute: 600, rule: "same", stand: "N1" };
  assert.equal(told(6, { ...asSent, parts: [part(640, 740, null, { bump })] }), "taken");
  assert.equal(told(6, { ...asSent, state: "onblock", parts: [part(600, 700, "N3", { actual: true })] }), "taken");
});
