// A draft over a picture of the plan: its edits, as they are kept over a reload, the days by which they are judged, the verdict, what a
// newer plan leaves of them, and whether a reply says that they are in the plan. Pages keep drafts; nothing here does.

import { firstClash, indexOf, slotsOf } from "./rules.js";
import { daysOf, flightOf, isLive, partsAfter, visitsAfter } from "./visits.js";

/**
 * @typedef {import("./rules.js").Model} Model
 * @typedef {import("./rules.js").Visit} Visit
 * @typedef {import("./visits.js").Edit} Edit
 * @typedef {Map<number, Visit>} Visits
 * @typedef {{edit: Edit, name: string, type: string, days: number[]}} Kept  an edit with what tells of its visit where that is not read, and
 *   the days that it was made over
 * @typedef {{days: number[], visits: number[]}} Needs  days that have to be read, and visits that their days do not have any more
 * @typedef {{body: string, base: number, desk: string, draft: number, parts: Record<string, {stand: string | null, to: number}[]>}} Sent
 */

/** The most edits that the server takes in one draft. */
export const MOST_EDITS = 64;

/** @param {Edit} edit @returns {{kind: string, said: any}} */
export function editOf(edit) {
  const [[kind, said]] = Object.entries(edit);
  return { kind, said };
}

const numberOf = (edit) => editOf(edit).said.visit;
const distinct = (numbers) => [...new Set(numbers)];

/**
 * An edit as a draft keeps it. Its visit is among the visits.
 * @param {Model} model @param {Visits} visits @param {Edit} edit
 * @returns {Kept}
 */
export function keptOf(model, visits, edit) {
  const visit = visits.get(numberOf(edit));
  return { edit, name: flightOf(visit), type: visit.type, days: daysOf(model, visit) };
}

/**
 * The edits of a draft without those that a later one makes vain: a part that is put or deallocated again, with no split
 * or merge of its visit between.
 * @param {Kept[]} kept
 * @returns {Kept[]}
 */
export function folded(kept) {
  const last = new Map();
  const stays = [];
  for (const it of [...kept].reverse()) {
    const { kind, said } = editOf(it.edit);
    const settled = last.get(said.visit) ?? new Set();
    if (kind === "cut" || kind === "join") last.set(said.visit, new Set());
    else if (settled.has(said.part)) continue;
    else last.set(said.visit, settled.add(said.part));
    stays.unshift(it);
  }
  return stays;
}

/**
 * How a draft of these edits would be answered in a plan of these visits: null where it is taken, or why not, as the server tells it.
 * @param {Model} model @param {Visits} visits @param {Edit[]} edits @param {number} [base]
 * @returns {null | {error: string}}
 */
export function judge(model, visits, edits, base = Infinity) {
  const { changed, refusal } = visitsAfter(model, visits, edits, base);
  if (refusal !== null) return refusal;
  const plan = [...visits.values()].map((visit) => changed.get(visit.visit) ?? visit);
  const slots = [...changed.values()].flatMap((visit) => slotsOf(model, visit));
  const clash = firstClash(model, indexOf(model, plan), slots);
  return clash === null ? null : { error: "clash", ...clash };
}

/**
 * What has to be read before the draft can be judged. A visit is on the days that it had when its edit was made, or has been moved to others:
 * it is asked for by its number where those days do not have it any more.
 * @param {Model} model @param {Visits} visits @param {Set<number>} covers @param {Kept[]} kept
 * @returns {Needs}
 */
export function needsOf(model, visits, covers, kept) {
  const days = new Set();
  const lost = [];
  for (const { edit, days: were } of kept) {
    const visit = visits.get(numberOf(edit));
    const late = (visit === undefined ? were : daysOf(model, visit)).filter((day) => !covers.has(day));
    for (const day of late) days.add(day);
    if (visit === undefined && late.length === 0) lost.push(numberOf(edit));
  }
  return { days: [...days].sort((one, other) => one - other), visits: distinct(lost) };
}

/**
 * What is to be said of a draft: that it fits, or is refused, or that it waits for days or visits to be read.
 * @param {Model} model @param {Visits} visits @param {Set<number>} covers @param {Kept[]} kept
 * @returns {{is: "empty"} | ({is: "waits"} & Needs) | {is: "fits"} | {is: "refused", refusal: {error: string}}}
 */
export function judgeDraft(model, visits, covers, kept) {
  if (kept.length === 0) return { is: "empty" };
  const needs = needsOf(model, visits, covers, kept);
  if (needs.days.length + needs.visits.length > 0) return { is: "waits", ...needs };
  const refusal = judge(model, visits, kept.map(({ edit }) => edit));
  return refusal === null ? { is: "fits" } : { is: "refused", refusal };
}

/**
 * The edits that are still possible over a newer picture, and those that are not, with the cause. An edit of a visit that is not read stays.
 * @param {Model} model @param {Visits} visits @param {Kept[]} kept
 * @returns {{kept: Kept[], dropped: {kept: Kept, error: string}[]}}
 */
export function lookAgain(model, visits, kept) {
  const plan = new Map(visits);
  const stays = [];
  const dropped = [];
  for (const it of kept) {
    const { kind, said } = editOf(it.edit);
    const visit = plan.get(said.visit);
    const after = visit === undefined ? { parts: null } : partsAfter(model, visit, kind, said);
    if (after.error !== undefined) {
      dropped.push({ kept: it, error: after.error });
      continue;
    }
    if (visit !== undefined) plan.set(said.visit, { ...visit, parts: after.parts });
    stays.push(it);
  }
  return { kept: stays, dropped };
}

/**
 * The first visit of the draft that was edited after its base; or null.
 * @param {Visits} visits @param {Kept[]} kept @param {number} base
 * @returns {Visit | null}
 */
export const overtakenOf = (visits, kept, base) =>
  kept.map(({ edit }) => visits.get(numberOf(edit))).find((visit) => visit !== undefined && visit.edited > base) ?? null;

/**
 * The draft's base over a picture of this version: that version where all its visits are read and none was edited since, else the old base,
 * so that the server refuses to undo an edit unseen.
 * @param {Visits} visits @param {Kept[]} kept @param {number} base @param {number} version
 * @returns {number}
 */
export function baseOf(visits, kept, base, version) {
  const all = kept.map(({ edit }) => visits.get(numberOf(edit)));
  const isSeen = all.length > 0 && all.every((visit) => visit !== undefined && visit.edited <= base);
  return isSeen ? Math.max(base, version) : base;
}

const placesOf = (visit) => visit.parts.map(({ stand, to }) => ({ stand, to }));

/**
 * What is sent of a draft, and what its visits have then to be like: it is kept until the reply is there.
 * @param {Model} model @param {Visits} visits @param {string} desk @param {number} draft @param {number} base @param {Edit[]} edits
 * @returns {Sent}
 */
export function sentOf(model, visits, desk, draft, base, edits) {
  const { changed } = visitsAfter(model, visits, edits);
  const parts = Object.fromEntries([...changed].map(([number, visit]) => [number, placesOf(visit)]));
  return { body: JSON.stringify({ desk, draft, base, edits }), base, desk, draft, parts };
}

/**
 * Whether a reply 200 is about the edits that were sent. The server answers a draft by its client and number alone, so that of another with the
 * same ones has a version of its own. A visit that was edited at that version has the parts that were asked for; one that was edited later shows
 * nothing. `entry` is what GET /entries/{version} says, or null where it was not read.
 * @param {Sent} sent @param {number} version @param {Visits} visits @param {{desk: string | null, kind: string} | null} entry
 * @returns {{is: "taken"} | {is: "other", why: string} | {is: "unsure", why: string}}
 */
export function takenOf(sent, version, visits, entry) {
  if (version <= sent.base) return { is: "other", why: `version ${version} was there before the draft was made` };
  if (entry !== null && (entry.kind !== "commit" || entry.desk !== sent.desk)) {
    const whose = entry.desk === null ? `a ${entry.kind}` : `client ${entry.desk}`;
    return { is: "other", why: `version ${version} was made by ${whose}` };
  }
  let sure = false;
  for (const [number, wanted] of Object.entries(sent.parts)) {
    const visit = visits.get(Number(number));
    if (visit === undefined || visit.edited > version) continue;
    if (visit.edited < version) return { is: "other", why: `version ${version} did not edit ${flightOf(visit)}` };
    if (!isAsWanted(visit, wanted)) return { is: "other", why: `version ${version} did something else to ${flightOf(visit)}` };
    sure = true;
  }
  return sure ? { is: "taken" } : { is: "unsure", why: "none of its visits shows it: each was edited again since, or is not read" };
}

// Whether a visit's parts are those that were wanted, but for what a message or a report has since done to them: it moves times, places
// facts, and takes stands away with a record.
function isAsWanted(visit, wanted) {
  if (!isLive(visit)) return true;
  return visit.parts.length === wanted.length && visit.parts.every(({ stand, actual, bump }, place) =>
    actual || bump !== null || stand === wanted[place].stand);
}
