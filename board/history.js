// What changed in the plan while this page looked: the list of changes, the marks of changed parts, and the changes of one visit.

import { changeLine, changeWords, changesOf } from "./changes.js";
import { $, el, fillKeyed } from "./dom.js";
import * as picture from "./model.js";
import { keyOf } from "./plan.js";
import { when } from "./times.js";

const MARKED = 20000;
const KEPT = 400;
const SHOWN = 40;

const state = { changes: [], marks: new Map(), count: 0 };

export const isMarked = (key) => state.marks.has(key);

// Takes what differs between two pictures, {visits, covers, version}. `known` has visits that were read since by themselves.
export function addChanges(before, after, known) {
  const found = changesOf(picture.model(), before, after, known);
  const until = performance.now() + MARKED;
  for (const change of found) {
    state.count += 1;
    state.changes.unshift({ ...change, number: state.count, at: Date.now() });
    state.marks.set(keyOf(change.visit, change.part), until);
  }
  state.changes.length = Math.min(state.changes.length, KEPT);
}

// Ends marks whose time has passed; gives whether there were any.
export function endMarks() {
  const passed = [...state.marks].filter(([, until]) => until < performance.now());
  for (const [key] of passed) state.marks.delete(key);
  return passed.length > 0;
}

// The changes of a visit that this page saw, the newest first.
export const changesOfVisit = (visit) => state.changes.filter((change) => change.visit === visit);

export function drawChanges() {
  fillKeyed($("changelist"), state.changes.slice(0, SHOWN).map((change) => {
    const words = changeLine(change, when);
    return {
      key: String(change.number), sign: words,
      make: () => el("li", { "data-version": change.version }, el("small", {}, String(change.version)),
        el("button", { type: "button", class: "line", tabindex: "-1", "data-goto": keyOf(change.visit, change.part) }, words)),
    };
  }));
}

export const wordsOf = (change) => changeWords(change, when);
