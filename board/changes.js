// What changed between two pictures of the plan. Only like is compared with like: a visit that one picture lacks is new, or no longer there,
// only on days that both pictures have.

import { flightOf, isListed } from "./visits.js";

/**
 * @typedef {import("./rules.js").Model} Model
 * @typedef {import("./rules.js").Part} Part
 * @typedef {import("./rules.js").Visit} Visit
 * @typedef {{visits: Map<number, Visit>, covers: Set<number>, version: number}} Picture  the visits of the days that it covers
 * @typedef {"new" | "here" | "away" | "vanished" | "cancelled" | "gone" | "onblock" | "inplace" | "put" | "moved" | "lifted" | "lost" | "times" |
 *   "cut" | "joined"} Kind
 * @typedef {{visit: number, part: number, kind: Kind, it: Visit, now: Part | null, was: Part | null, version: number}} Change  `it` is the newest
 *   that is known of the visit
 */

/**
 * The changes from one picture to a newer one, by visit. `known` has visits that were read one by one since: by them it is told whether a
 * visit that is no longer listed was cancelled or has moved to another day.
 * @param {Model} model @param {Picture} before @param {Picture} after @param {Map<number, Visit>} [known]
 * @returns {Change[]}
 */
export function changesOf(model, before, after, known = new Map()) {
  const shared = [...after.covers].filter((day) => before.covers.has(day));
  const isShared = (visit) => shared.some((day) => isListed(model, visit, day));
  const changes = [];
  for (const [number, visit] of after.visits) {
    const old = before.visits.get(number);
    if (old !== undefined) changes.push(...changesBetween(old, visit));
    else if (isShared(visit)) changes.push(change(visit, 1, isAsScheduled(visit) ? "new" : "here", null));
  }
  for (const [number, old] of before.visits) {
    if (!after.visits.has(number) && isShared(old)) changes.push(leaving(old, known.get(number)));
  }
  return changes.map((it) => ({ ...it, version: after.version })).sort((one, other) => one.visit - other.visit);
}

const change = (it, part, kind, was) => ({ visit: it.visit, part, kind, it, now: it.parts[part - 1] ?? null, was });

// A visit whose times are the scheduled ones was always on its days; any other may have come from another day.
const isAsScheduled = ({ off, on, parts }) => parts[0].from === on && parts.at(-1).to === off;

function leaving(old, newest) {
  if (newest === undefined) return { ...change(old, 1, "vanished", old.parts[0]), now: null };
  return change(newest, 1, newest.state === "cancelled" ? "cancelled" : "away", old.parts[0]);
}

// What changed of a visit that both pictures have.
function changesBetween(old, visit) {
  if (visit.state === "gone" && old.state !== "gone") return [change(visit, visit.parts.length, "gone", old.parts[visit.parts.length - 1] ?? null)];
  const pairs = pairsOf(old.parts, visit.parts);
  const found = pairs.flatMap(([was, now]) => {
    const part = visit.parts.indexOf(now) + 1;
    if (was === undefined) return [change(visit, part, "cut", null)];
    return kindsOf(old, was, now, visit.parts.length === old.parts.length).map((kind) => change(visit, part, kind, was));
  });
  if (visit.state === "onblock" && old.state !== "onblock" && !found.some(({ kind }) => kind === "onblock")) {
    found.unshift(change(visit, 1, "onblock", old.parts[0]));
  }
  if (visit.parts.length < old.parts.length) found.push(change(visit, visit.parts.length, "joined", old.parts.at(-1)));
  return found;
}

// The part that each part was before. Where their number differs it is the one that began at the same minute, if there is one.
function pairsOf(were, parts) {
  if (were.length === parts.length) return parts.map((now, place) => [were[place], now]);
  return parts.map((now) => [were.find(({ from }) => from === now.from), now]);
}

function kindsOf(old, was, now, isSameNumber) {
  if (now.actual && !was.actual) return [old.state === "onblock" ? "inplace" : "onblock"];
  const kinds = [];
  if (was.stand !== now.stand) kinds.push(placeKind(was, now));
  if (isSameNumber && (was.from !== now.from || was.to !== now.to)) kinds.push("times");
  return kinds;
}

function placeKind(was, now) {
  if (now.stand === null) return now.bump === null ? "lifted" : "lost";
  return was.stand === null ? "put" : "moved";
}

/**
 * A change in words, after the flight and the type. `when` writes a minute.
 * @param {Change} change @param {(minute: number) => string} when
 */
export function changeWords({ kind, now, was }, when) {
  const stay = ({ from, to }) => `${when(from)}–${when(to)}`;
  const words = {
    new: () => `new, ${stay(now)}`,
    here: () => `comes into these days, ${stay(now)}`,
    away: () => `now at ${stay(now)}`,
    vanished: () => "cancelled, or moved to another day",
    cancelled: () => "cancelled",
    gone: () => `off block at ${when(now.to)}`,
    onblock: () => `on block at ${when(now.from)}${placeWords(was, now)}`,
    inplace: () => `in place at ${when(now.from)}${placeWords(was, now)}`,
    put: () => `put on ${now.stand}`,
    moved: () => `${was.stand} → ${now.stand}`,
    lifted: () => `taken off ${was.stand}`,
    lost: () => `lost ${was.stand}`,
    times: () => `${stay(was)} → ${stay(now)}`,
    cut: () => `${stay(now)} is a part of its own`,
    joined: () => "merged with its next part",
  };
  return words[kind]();
}

function placeWords(was, now) {
  if (now.stand === null) return " without a stand";
  const planned = was.stand !== null && was.stand !== now.stand ? `, planned on ${was.stand}` : "";
  return ` on ${now.stand}${planned}`;
}

/**
 * The whole line of a change.
 * @param {Change} change @param {(minute: number) => string} when
 */
export const changeLine = (change, when) => `${flightOf(change.it)} ${change.it.type}: ${changeWords(change, when)}`;
