// First fit, against docs/reference/cli.md, What `propose` prints.

import assert from "node:assert/strict";
import { test } from "node:test";
import { judge } from "../draft.js";
import { leftWords, proposalOf } from "../proposal.js";
import { at, demo, part, planOf, present, visit } from "./plans.mjs";

const DAY = { begin: 0, end: 1440 };
const puts = ({ edits }) => edits.map(({ put }) => `${put.visit}.${put.part} ${put.stand}`);

test("two A320 and two A388 get the stands that the document shows, and the last is left with a cause for each stand", () => {
  const plan = planOf(visit(1, "A320", [part(600, 660)]), visit(2, "A320", [part(600, 660)]), visit(3, "A388", [part(600, 700)]), visit(4, "A388", [part(600, 700)]));
  const made = proposalOf(demo, plan, DAY);
  assert.deepEqual(puts(made), ["1.1 N1", "2.1 N2", "3.1 14"]);
  assert.equal(judge(demo, plan, made.edits), null);
  assert.deepEqual(made.left.map((it) => [it.visit, it.part, it.why.length]), [[4, 1, 13]]);
  assert.deepEqual(made.left[0].why[at("14")], { clash: { a: { part: 1, visit: 3 }, b: { part: 1, visit: 4 }, minute: 600, rule: "same" } });
  assert.ok(made.left[0].why.every((it, stand) => stand === at("14") || it.by === "letter"));
  const words = leftWords(demo, made.left[0], { name: (it) => `V${it.visit}`, when: String });
  assert.equal(words, "1 taken, 14 by V3 from 600; 12 of too small a letter");
});

test("only what waits in the window is proposed, over the draft so far and up to its most edits", () => {
  const plan = planOf(visit(1, "A320", [part(600, 660)]), visit(2, "A320", [part(2000, 2060)]), visit(3, "A320", [part(600, 660)]), visit(4, "A320", [part(600, 660)]));
  const edits = [{ put: { visit: 1, part: 1, stand: "N1" } }];
  assert.deepEqual(puts(proposalOf(demo, plan, { ...DAY, edits })), ["3.1 N2", "4.1 S1"]);
  const short = proposalOf(demo, plan, { ...DAY, edits, most: 2 });
  assert.deepEqual([puts(short), short.over], [["3.1 N2"], [{ visit: 4, part: 1 }]]);
  assert.deepEqual(puts(proposalOf(demo, plan, { begin: 1440, end: 2880 })), ["2.1 N1"]);
});

test("a closure that lost its stand is put on no other, and one on a stand stays in the way", () => {
  const closure = (number, stand) => visit(number, "B190", [part(600, 660, stand)], { name: `CLOSED-${number}`, class: 0 });
  assert.deepEqual(puts(proposalOf(demo, planOf(closure(1, null), closure(2, "N1"), visit(3, "A320", [part(600, 660)])), DAY)), ["3.1 N2"]);
});

test("with the present minute, the stand of an overdue aircraft is left out for a while", () => {
  const plan = planOf(present(1, "A320", 500, 560, "N1"), visit(2, "A320", [part(600, 660)]), visit(3, "A320", [part(640, 700)]));
  assert.deepEqual(puts(proposalOf(demo, plan, DAY)), ["2.1 N1", "3.1 N2"]);
  assert.deepEqual(puts(proposalOf(demo, plan, { ...DAY, now: 590 })), ["2.1 N2", "3.1 N1"]);
});
