// The file of a planner's drafts, against docs/guide/planner.md.

import assert from "node:assert/strict";
import { test } from "node:test";
import { readPlanFile } from "../planfile.js";
import { demo } from "./plans.mjs";

const EDITS = [{ put: { visit: 1, part: 1, stand: "N1" } }, { cut: { visit: 2, part: 1, at: 700 } }, { put: { visit: 2, part: 2, stand: "S1" } }];
const FILE = { station: "APR", first_day: "2026-03-27", version: 7, base: 7, drafts: [1, 2], edits: EDITS };
const opened = (more) => readPlanFile(JSON.stringify({ ...FILE, ...more }), demo, 9);

test("the edits are given draft by draft, with the base of the first", () => {
  assert.deepEqual(opened({}), { base: 7, drafts: [EDITS.slice(0, 1), EDITS.slice(1)] });
});

test("a file of another plan, and one that is no file of drafts, are not opened", () => {
  const rows = [
    [{ station: "LRG" }, /plan of LRG from 2026-03-27, and this is the plan of APR/], [{ first_day: "2026-03-28" }, /from 2026-03-28/],
    [{ base: 10 }, /over version 10, and this plan is at version 9/], [{ drafts: [1, 1] }, /do not have its edits/],
    [{ drafts: [65], edits: Array(65).fill(EDITS[0]) }, /do not have its edits/], [{ edits: [] }, /edits has 0 entries/],
    [{ edits: [{ move: { visit: 1 } }] }, /edits\[0\] is none of put, lift, cut, join/], [{ edits: [{ put: { visit: 1, part: 1 } }] }, /put\.stand is missing/],
    [{ edits: [null] }, /edits\[0\] is none of/], [{ drafts: [1], edits: [{ put: { visit: 1, part: 1, stand: "Z9" } }] }, /no stand Z9/],
  ];
  for (const [more, fault] of rows) assert.match(opened(more).fault, fault, JSON.stringify(more));
  assert.match(readPlanFile("{", demo, 9).fault, /not JSON/);
  assert.match(readPlanFile("[]", demo, 9).fault, /no file of a draft/);
});
