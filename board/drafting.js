// The draft of this client: its edits, the version that they were made over, what is thought of them, and what the browser keeps of them.

import { MOST_EDITS, baseOf, editOf, judgeDraft, keptOf, lookAgain as stillPossible, overtakenOf } from "./draft.js";
import { deskName, isHeld } from "./desk.js";
import * as picture from "./model.js";
import { keyOf, remake } from "./plan.js";
import { redraw } from "./redraw.js";
import { keep, keysWith, read } from "./store.js";
import { visitsAfter } from "./visits.js";

const state = { kept: [], base: 0, pending: null, refused: null, unanswered: null, dropped: [], verdict: { is: "empty" } };

export const edits = () => state.kept.map(({ edit }) => edit);
export const keptEdits = () => state.kept;
export const draftBase = () => state.base;
export const pendingDraft = () => state.pending;
export const refusedDraft = () => state.refused;
export const unanswered = () => state.unanswered;
export const droppedEdits = () => state.dropped;
export const isEmpty = () => state.kept.length === 0 && state.pending === null;

// The days that the draft's edits were made over.
export const draftDays = () => [...new Set(state.kept.flatMap(({ days }) => days))];

// What is thought of the draft over the picture: an outcome of judgeDraft.
export const verdict = () => state.verdict;
export const overtaken = () => overtakenOf(picture.visits(), state.kept, state.base);

// Keeps the draft for a reload of this tab and, where another tab can't take it for its own, for the next start after a crash.
function keepDraft() {
  const { kept, base, pending } = state;
  keep(sessionStorage, "draft", { kept, base, pending });
  if (isHeld()) keep(localStorage, `draft ${deskName()}`, isEmpty() ? null : { kept, base, pending, at: Date.now() });
}

// What follows from every change of the draft or of the picture.
export function refresh() {
  state.base = baseOf(picture.visits(), state.kept, state.base, picture.version());
  state.verdict = judgeDraft(picture.model(), picture.visits(), picture.covers(), state.kept);
  remake(edits());
  redraw();
}

// Whether a part is one of the two that a refusal, or the verdict, is about.
export function isBlamed(key) {
  const { a, b } = state.refused ?? state.verdict.refusal ?? {};
  return [a, b].some((it) => it !== undefined && keyOf(it.visit, it.part) === key);
}

function changed() {
  keepDraft();
  refresh();
}

// Adds edits, all of them or, where one is not possible, none: then it gives the refusal, {edit, error ..}, of the first.
export function addEdits(added) {
  if (state.pending !== null) return { error: "pending" };
  if (state.kept.length + added.length > MOST_EDITS) return { error: "edits" };
  const { refusal } = visitsAfter(picture.model(), picture.visits(), [...edits(), ...added]);
  if (refusal !== null && refusal.edit > state.kept.length) return refusal;
  if (state.kept.length === 0) state.base = picture.version();
  state.kept = [...state.kept, ...added.map((edit) => keptOf(picture.model(), picture.visits(), edit))];
  Object.assign(state, { refused: null, dropped: [] });
  changed();
  return null;
}

// Takes back the last edit, and gives it; or null.
export function undoEdit() {
  if (state.pending !== null || state.kept.length === 0) return null;
  const { edit } = state.kept.at(-1);
  state.kept = state.kept.slice(0, -1);
  Object.assign(state, { refused: null, dropped: [] });
  changed();
  return edit;
}

export function dropDraft() {
  if (state.pending !== null) return;
  Object.assign(state, { kept: [], refused: null, dropped: [] });
  changed();
}

// The newest picture becomes the draft's base, since a person has looked at it. Edits that are no longer possible leave the draft, and are
// named; those of visits that are not read stay.
export function lookAgain() {
  const { kept, dropped } = stillPossible(picture.model(), picture.visits(), state.kept);
  Object.assign(state, { kept, dropped, base: picture.version(), refused: null });
  changed();
}

export function setPending(sent) {
  Object.assign(state, { pending: sent, refused: null, unanswered: null });
  changed();
}

export function setUnanswered(outcome) {
  state.unanswered = outcome;
  redraw();
}

// The draft is in the plan, or was refused.
export function settle(refusal) {
  Object.assign(state, { pending: null, unanswered: null, refused: refusal });
  if (refusal === null) Object.assign(state, { kept: [], dropped: [] });
  changed();
}

// Tells who overtook the draft, where the server has said it.
export function blame(desk) {
  if (state.refused === null) return;
  state.refused = { ...state.refused, by: desk };
  redraw();
}

// Which edit a refusal is about: the one that it names, or of a clash the last one of one of its two parts.
export function blamedPlace({ edit, a, b }) {
  if (edit !== undefined) return edit - 1;
  const isOf = (said, it) => it !== undefined && said.visit === it.visit && said.part === it.part;
  return edits().findLastIndex((it) => isOf(editOf(it).said, a) || isOf(editOf(it).said, b));
}

// ---- What the browser keeps

const isDraft = (it) => Array.isArray(it?.kept) && it.kept.every((kept) => typeof kept?.edit === "object" && Array.isArray(kept.days));

function restore(draft) {
  Object.assign(state, { kept: draft.kept, base: draft.base ?? 0, pending: draft.pending ?? null });
  keepDraft();
}

// Takes up the draft that this tab had before a reload.
export function restoreOwn() {
  const draft = read(sessionStorage, "draft", null);
  if (isDraft(draft)) restore(draft);
}

// Forgets what a copied tab has of its original's draft.
export const forgetCopied = () => keep(sessionStorage, "draft", null);

// Forgets it all: a person goes on from an older plan.
export function forgetDraft() {
  Object.assign(state, { kept: [], pending: null, refused: null, dropped: [] });
  keepDraft();
}

// The drafts that were kept of clients which are open nowhere, {desk, kept, base, pending, at}, the latest first.
export function lostDrafts(open) {
  return keysWith(localStorage, "draft ").filter((desk) => desk !== deskName() && !open.includes(desk))
    .map((desk) => ({ desk, ...read(localStorage, `draft ${desk}`, {}) })).filter(isDraft).sort((one, other) => other.at - one.at);
}

// Takes up edits that a planner wrote over the plan of this version. The draft is empty before.
export function openDraft(kept, base) {
  restore({ kept, base });
  refresh();
}

export const forgetLost = (desk) => keep(localStorage, `draft ${desk}`, null);

// Takes up a draft that another client left. What was on its way is asked for again by the same bytes, under that client's name.
export function takeLost(lost) {
  forgetLost(lost.desk);
  restore(lost);
  refresh();
}

// A client that changes its name takes its draft along.
export function movedFrom(desk) {
  keep(localStorage, `draft ${desk}`, null);
  keepDraft();
}
