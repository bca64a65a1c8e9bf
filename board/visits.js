// What an edit or a fact does to the parts of one visit (docs/reference/http.md, A commit, and docs/reference/messages.md), and what a visit is: its flight,
// its rank, its days. A visit that is given is left as it is.

import { DAY, MOST_PARTS, unfitOf } from "./rules.js";

/**
 * @typedef {import("./rules.js").Model} Model
 * @typedef {import("./rules.js").Part} Part
 * @typedef {import("./rules.js").PartId} PartId
 * @typedef {import("./rules.js").Visit} Visit
 * @typedef {{put: PartId & {stand: string}} | {lift: PartId} | {cut: PartId & {at: number}} | {join: PartId}} Edit
 * @typedef {{edit: number, error: string, by?: import("./rules.js").Unfit, edited?: number, visit?: number}} Refusal  of the edit with this
 *   number, counted from 1
 * @typedef {{visit: Visit, part: number, it: Part}} Waiting
 */

/** @param {Visit} visit */
export const flightOf = (visit) => visit.arr?.flight ?? visit.dep?.flight ?? visit.name;

/** @param {Visit} visit */
export const isLive = ({ state }) => state === "expected" || state === "onblock";

/**
 * How it is with a part: an aircraft that was towed on has left its stand too.
 * @param {Visit} visit @param {number} part @param {number} now
 * @returns {"expected" | "onblock" | "overdue" | "gone"}
 */
export function stateOf(visit, part, now) {
  const it = visit.parts[part - 1];
  if (visit.state === "gone" || visit.parts.slice(part).some((later) => later.actual)) return "gone";
  if (!it.actual) return "expected";
  return it.to < now ? "overdue" : "onblock";
}

/**
 * The days of the plan at which one of the visit's parts may hold a stand, whichever that is.
 * @param {Model} model @param {Visit} visit
 * @returns {number[]}
 */
export function daysOf(model, visit) {
  const first = Math.floor(visit.parts[0].from / DAY) + 1;
  const last = Math.ceil((visit.parts.at(-1).to + model.mostBuffer) / DAY);
  const days = [];
  for (let day = Math.max(1, first); day <= Math.min(last, model.days); day++) days.push(day);
  return days;
}

/**
 * Whether a day lists the visit: one of its parts holds its stand for a minute of the day, buffer included, or waits and lasts for one.
 * @param {Model} model @param {Visit} visit @param {number} day
 */
export function isListed(model, visit, day) {
  const [begin, end] = [(day - 1) * DAY, day * DAY];
  return visit.parts.some(({ from, stand, to }) => {
    if (stand === null) return isLive(visit) && from < end && to > begin;
    return from < end && to + model.stands[model.standOf.get(stand)].buffer > begin;
  });
}

/**
 * The rank of a part: of two that clash the one with the lower rank keeps its stand.
 * @param {Visit} visit @param {number} part
 */
const rankOf = (visit, part) => [visit.class, visit.on, visit.visit, part];

/** @param {{visit: Visit, part: number}} one @param {{visit: Visit, part: number}} other */
export function byRank(one, other) {
  const second = rankOf(other.visit, other.part);
  return rankOf(one.visit, one.part).map((it, place) => it - second[place]).find((it) => it !== 0) ?? 0;
}

/**
 * The parts of visits that are neither gone nor cancelled that have no stand and last for one of these minutes at least, by rank.
 * @param {Iterable<Visit>} visits @param {number} begin @param {number} end
 * @returns {Waiting[]}
 */
export function waitingOf(visits, begin, end) {
  const found = [];
  for (const visit of visits) {
    if (!isLive(visit)) continue;
    visit.parts.forEach((it, place) => {
      if (it.stand === null && it.from < end && it.to > begin) found.push({ visit, part: place + 1, it });
    });
  }
  return found.sort(byRank);
}

// ---------------------------------------------------------------- Edits

/**
 * The parts of a visit after an edit, or why the edit is refused.
 * @param {Model} model @param {Visit} visit @param {string} kind `put`, `lift`, `cut` or `join` @param {any} said
 * @returns {{parts: Part[]} | {error: string, by?: import("./rules.js").Unfit}}
 */
export function partsAfter(model, visit, kind, said) {
  const place = said.part - 1;
  const part = visit.parts[place];
  if (!isLive(visit)) return { error: "gone" };
  if (part === undefined) return { error: "part" };
  const moves = kind === "put" || kind === "lift";
  if (moves ? part.actual : visit.parts.slice(place + 1).some((it) => it.actual)) return { error: "onblock" };
  return EDITS[kind](model, visit, place, said);
}

// The parts with `count` of them, from a place on, replaced.
const replaced = (parts, place, count, ...others) => [...parts.slice(0, place), ...others, ...parts.slice(place + count)];

const EDITS = {
  put(model, { type, parts }, place, { stand }) {
    const by = unfitOf(model, model.standOf.get(stand), model.typeOf.get(type));
    return by === null ? { parts: replaced(parts, place, 1, { ...parts[place], stand, bump: null }) } : { error: "unfit", by };
  },
  lift(_, { parts }, place) {
    return { parts: replaced(parts, place, 1, { ...parts[place], stand: null, bump: null }) };
  },
  cut(model, { type, parts }, place, { at }) {
    const { least } = model.typeOf.get(type);
    const part = parts[place];
    const from = at + model.tow;
    if (parts.length === MOST_PARTS || at < part.from + least || part.to < from + least) return { error: "cut" };
    return { parts: replaced(parts, place, 1, { ...part, to: at }, { actual: false, bump: null, from, stand: null, to: part.to }) };
  },
  join(_, { parts }, place) {
    const later = parts[place + 1];
    return later === undefined ? { error: "join" } : { parts: replaced(parts, place, 2, { ...parts[place], to: later.to }) };
  },
};

/**
 * The visits that edits change, by number, with the parts that they then have, and the first refusal of an edit. An edit that is refused
 * changes nothing here. With a base, an edit of a visit that was edited after it is overtaken.
 * @param {Model} model @param {Map<number, Visit>} visits @param {Edit[]} edits @param {number} [base]
 * @returns {{changed: Map<number, Visit>, refusal: Refusal | null}}
 */
export function visitsAfter(model, visits, edits, base = Infinity) {
  const changed = new Map();
  let refusal = null;
  edits.forEach((edit, place) => {
    const [[kind, said]] = Object.entries(edit);
    const visit = changed.get(said.visit) ?? visits.get(said.visit);
    const after = visit === undefined ? { error: "unknown" }
      : visit.edited > base ? { error: "overtaken", edited: visit.edited, visit: visit.visit } : partsAfter(model, visit, kind, said);
    if (after.error === undefined) changed.set(said.visit, { ...visit, parts: after.parts });
    else refusal ??= { edit: place + 1, ...after };
  });
  return { changed, refusal };
}

// ---------------------------------------------------------------- Facts and estimates

// The parts when the one at a place begins at this minute, and the later ones are delayed as far as needed.
function partsFrom(model, visit, parts, place, from) {
  const { least } = model.typeOf.get(visit.type);
  let begins = from;
  return parts.map((part, at) => {
    if (at < place) return part;
    const start = at === place ? from : Math.max(part.from, begins);
    const to = Math.max(part.to, start + least);
    begins = to + model.tow;
    return { ...part, from: start, to };
  });
}

/**
 * The visit, with a part that begins at this minute by an estimate.
 * @param {Model} model @param {Visit} visit @param {number} part @param {number} from
 * @returns {Visit}
 */
export const pushed = (model, visit, part, from) => ({ ...visit, parts: partsFrom(model, visit, visit.parts, part - 1, from) });

/**
 * The visit on block with a part from this minute on, perhaps on another stand; or null if a later part is in place, or there is no time for
 * the tow.
 * @param {Model} model @param {Visit} visit @param {number} part @param {number} minute @param {string | null} stand
 * @returns {Visit | null}
 */
export function arrived(model, visit, part, minute, stand) {
  const place = part - 1;
  const isEarly = place > 0 && minute < visit.parts[place - 1].from + 1 + model.tow;
  if (isEarly || visit.parts.slice(part).some((it) => it.actual)) return null;
  const parts = visit.parts.map((it, at) => {
    if (at === place - 1) return { ...it, to: minute - model.tow };
    return at === place && stand !== null ? { ...it, stand, bump: null } : it;
  });
  const facts = partsFrom(model, visit, parts, place, minute)
    .map((it, at) => (at <= place && it.stand !== null ? { ...it, actual: true } : it));
  return { ...visit, parts: facts, state: "onblock" };
}

/**
 * The visit, expected off block at this minute.
 * @param {Model} model @param {Visit} visit @param {number} minute
 * @returns {Visit}
 */
export function offExpected(model, visit, minute) {
  const last = visit.parts.at(-1);
  const to = Math.max(minute, last.from + model.typeOf.get(visit.type).least);
  return { ...visit, parts: [...visit.parts.slice(0, -1), { ...last, to }] };
}

/**
 * The visit, gone at this minute; or null if it had not begun then.
 * @param {Visit} visit @param {number} minute
 * @returns {Visit | null}
 */
export function departed(visit, minute) {
  const begun = visit.parts.filter(({ from }) => from < minute);
  if (begun.length === 0) return null;
  const parts = begun.map((it, place) => ({ ...it, to: place === begun.length - 1 ? minute : it.to, actual: it.stand !== null }));
  return { ...visit, parts, state: "gone" };
}

/**
 * The visit, cancelled: it holds no stand.
 * @param {Visit} visit
 * @returns {Visit}
 */
export const cancelled = (visit) => ({ ...visit, state: "cancelled", parts: visit.parts.map((it) => ({ ...it, stand: null, bump: null })) });
