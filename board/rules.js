// The rules of stands, as the server has them (docs/reference/files.md and docs/reference/http.md): what keeps an aircraft off a stand, and when two exclude
// each other. Nothing here knows of a page. Times are minutes from 00:00 UTC of the plan's first day, lengths are centimetres.

/**
 * @typedef {{visit: number, part: number}} PartId  a part, counted from 1
 * @typedef {"same" | "split" | "clearance" | "pair"} Rule
 * @typedef {{a: PartId, b: PartId, minute: number, rule: Rule}} Clash
 * @typedef {{blocker: PartId, entry: number, minute: number, rule: Rule, stand: string}} Bump
 * @typedef {{actual: boolean, bump: Bump | null, from: number, stand: string | null, to: number}} Part
 * @typedef {{day: number, flight: string}} Flight
 * @typedef {{arr: Flight | null, class: number, dep: Flight | null, edited: number, name: string, off: number, on: number, parts: Part[],
 *   state: "expected" | "onblock" | "gone" | "cancelled", type: string, visit: number}} Visit  as GET /visits/{n} gives it
 * @typedef {{fold: number, least: number, letter: string, name: string, parked: number, span: number}} Type
 * @typedef {{buffer: number, centre: number, frontage: string, half_of: string | null, letter: string, name: string}} Stand
 * @typedef {{days: number, first_day: string, frontages: {name: string, objects: number[]}[], pairs: {a: string, b: string, la: string,
 *   lb: string}[], stands: Stand[], station: string, taxi_in: number, tow: number, types: Type[]}} Airport  as GET /airport gives it
 * @typedef {{stand: number, rule: Rule | null, room: number, pairs: [string, string][]}} Near  a stand beside another: the rule that always
 *   holds, or twice the room between the centrelines, and the code letters of either that are restricted
 * @typedef {Airport & {standOf: Map<string, number>, typeOf: Map<string, Type>, objectsOf: Map<string, number[]>, near: Near[][],
 *   mostBuffer: number}} Model
 * @typedef {{visit: number, part: number, stand: number, type: Type, from: number, to: number, end: number, actual: boolean}} Slot  a part on
 *   a stand: `to` is its end, and `end` that of the buffer after it
 * @typedef {Slot[][]} Index  the slots on each stand, by their beginnings
 * @typedef {"letter" | {object: number}} Unfit
 */

export const DAY = 1440;
export const MOST_PARTS = 3;

// Below which wing span a code letter ends, and the clearance between wing tips that it needs (ICAO Annex 14 Volume I).
const LETTERS = [
  { below: 1500, letter: "A", clearance: 300 }, { below: 2400, letter: "B", clearance: 300 }, { below: 3600, letter: "C", clearance: 450 },
  { below: 5200, letter: "D", clearance: 750 }, { below: 6500, letter: "E", clearance: 750 }, { below: 8000, letter: "F", clearance: 750 },
];
const rowOf = (span) => LETTERS.find(({ below }) => span < below);

/** @param {number} span */
export const letterOf = (span) => rowOf(span).letter;
/** @param {number} span */
export const clearanceOf = (span) => rowOf(span).clearance;

/**
 * An airport with look-ups: stands and types by name, and for each stand the stands that the widest type could exclude. All rules grow
 * stricter with the spans, so no other stand can matter.
 * @param {Airport} airport
 * @returns {Model}
 */
export function modelOf(airport) {
  const widest = Math.max(...airport.types.map((type) => type.span));
  const restricted = restrictionsOf(airport.pairs);
  const near = airport.stands.map((one) => airport.stands
    .map((two, stand) => beside(restricted, one, two, stand))
    .filter((it) => ruleOf(it, widest, widest) !== null));
  return {
    ...airport,
    standOf: new Map(airport.stands.map((stand, place) => [stand.name, place])),
    typeOf: new Map(airport.types.map((type) => [type.name, type])),
    objectsOf: new Map(airport.frontages.map((frontage) => [frontage.name, frontage.objects])),
    near,
    mostBuffer: Math.max(...airport.stands.map((stand) => stand.buffer)),
  };
}

// The letters that are restricted on two stands, by the names of both, in either order.
function restrictionsOf(pairs) {
  const restricted = new Map();
  const add = (key, letters) => restricted.set(key, [...(restricted.get(key) ?? []), letters]);
  for (const { a, la, b, lb } of pairs) {
    add(`${a} ${b}`, [la, lb]);
    add(`${b} ${a}`, [lb, la]);
  }
  return restricted;
}

// How the second stand, at this place, lies beside the first.
function beside(restricted, one, two, stand) {
  const split = one.half_of === two.name || two.half_of === one.name;
  return {
    stand,
    rule: one === two ? "same" : split ? "split" : null,
    room: one.frontage === two.frontage ? 2 * Math.abs(one.centre - two.centre) : Infinity,
    pairs: restricted.size === 0 ? [] : restricted.get(`${one.name} ${two.name}`) ?? [],
  };
}

// The first rule by which two stands that lie so exclude each other with aircraft of these spans on them; or null.
function ruleOf({ rule, room, pairs }, span, otherSpan) {
  if (rule !== null) return rule;
  const [one, two] = [rowOf(span), rowOf(otherSpan)];
  if (room < span + otherSpan + 2 * Math.max(one.clearance, two.clearance)) return "clearance";
  return pairs.some(([letter, other]) => one.letter >= letter && two.letter >= other) ? "pair" : null;
}

const nearOf = (model, stand, other) => model.near[stand].find((it) => it.stand === other);

/**
 * The first rule by which two stands, by their places, exclude each other with aircraft of these spans on them; or null.
 * @param {Model} model @param {number} stand @param {number} span @param {number} other @param {number} otherSpan
 * @returns {Rule | null}
 */
export function ruleBetween(model, stand, span, other, otherSpan) {
  const near = nearOf(model, stand, other);
  return near === undefined ? null : ruleOf(near, span, otherSpan);
}

/**
 * Why a type never fits a stand: its letter, or an object of the frontage, counted from 1; or null where it fits.
 * @param {Model} model @param {number} stand @param {Type} type
 * @returns {Unfit | null}
 */
export function unfitOf(model, stand, type) {
  const { letter, centre, frontage } = model.stands[stand];
  if (letterOf(type.span) > letter) return "letter";
  const room = type.span + 2 * clearanceOf(type.span);
  const place = model.objectsOf.get(frontage).findIndex((object) => 2 * Math.abs(centre - object) < room);
  return place < 0 ? null : { object: place + 1 };
}

/**
 * The slot of a part, as if it were on the stand of this place.
 * @param {Model} model @param {Visit} visit @param {number} part @param {number} stand
 * @returns {Slot}
 */
export function slotOn(model, visit, part, stand) {
  const { from, to, actual } = visit.parts[part - 1];
  return { visit: visit.visit, part, stand, type: model.typeOf.get(visit.type), from, to, end: to + model.stands[stand].buffer, actual };
}

/**
 * The slots of a visit's parts that are on stands.
 * @param {Model} model @param {Visit} visit
 * @returns {Slot[]}
 */
export const slotsOf = (model, visit) => visit.parts.flatMap((it, place) =>
  it.stand === null ? [] : [slotOn(model, visit, place + 1, model.standOf.get(it.stand))]);

/**
 * @param {Model} model @param {Iterable<Visit>} visits
 * @returns {Index}
 */
export function indexOf(model, visits) {
  const index = model.stands.map(() => []);
  for (const visit of visits) {
    for (const slot of slotsOf(model, visit)) index[slot.stand].push(slot);
  }
  for (const slots of index) slots.sort((one, other) => one.from - other.from);
  return index;
}

/**
 * The wing span of a slot's aircraft at a minute: full near the start and the end of its part and in the buffer, and parked between.
 * @param {Slot} slot @param {number} minute
 */
export const spanAt = ({ type, from, to }, minute) =>
  minute < from + type.fold || minute + type.fold >= to ? type.span : type.parked;

/**
 * The first minute from `start` on at which two slots clash, and the rule of that minute; or null.
 * @param {Model} model @param {Slot} slot @param {Slot} other @param {number} [start]
 * @returns {{minute: number, rule: Rule} | null}
 */
export function meetingOf(model, slot, other, start = 0) {
  const near = nearOf(model, slot.stand, other.stand);
  return near === undefined ? null : meetingAt(near, slot, other, start);
}

function meetingAt(near, slot, other, start) {
  const first = Math.max(start, slot.from, other.from);
  const until = Math.min(slot.end, other.end);
  if (first >= until) return null;
  for (const minute of changesFrom(slot, other, first, until)) {
    const rule = ruleOf(near, spanAt(slot, minute), spanAt(other, minute));
    if (rule !== null) return { minute, rule };
  }
  return null;
}

// The minutes from `first` on at which the spans of two slots, and so the rule, may differ from the minute before.
function changesFrom(slot, other, first, until) {
  const minutes = [first];
  for (const { type, from, to } of [slot, other]) {
    if (type.parked !== type.span) minutes.push(...[from + type.fold, to - type.fold].filter((it) => it > first && it < until));
  }
  return minutes.sort((one, two) => one - two);
}

/**
 * The order of parts: by visit, then by part.
 * @param {PartId} one @param {PartId} other
 */
const isBefore = (one, other) => one.visit < other.visit || (one.visit === other.visit && one.part < other.part);

const partOf = ({ part, visit }) => ({ part, visit });

// Whether the first clash comes before the second: by minute, then by its parts.
function isSooner(clash, other) {
  if (other === null || clash.minute !== other.minute) return other === null || clash.minute < other.minute;
  const { a, b } = clash;
  return isBefore(a, other.a) || (!isBefore(other.a, a) && isBefore(b, other.b));
}

/**
 * Every clash of a slot with slots of other visits, by minute. Two aircraft that are both on block are none.
 * @param {Model} model @param {Index} index @param {Slot} slot
 * @returns {{other: Slot, minute: number, rule: Rule}[]}
 */
export function clashesOf(model, index, slot) {
  const found = [];
  for (const near of model.near[slot.stand]) {
    for (const other of index[near.stand]) {
      if (other.from >= slot.end) break;
      if (other.end <= slot.from || other.visit === slot.visit || (slot.actual && other.actual)) continue;
      const met = meetingAt(near, slot, other, 0);
      if (met !== null) found.push({ other, ...met });
    }
  }
  return found.sort((one, two) => one.minute - two.minute);
}

/**
 * The first clash of these slots with slots of other visits; or null. Two that are both on block refuse nothing.
 * @param {Model} model @param {Index} index @param {Slot[]} slots
 * @returns {Clash | null}
 */
export function firstClash(model, index, slots) {
  let first = null;
  for (const slot of slots) {
    for (const { other, minute, rule } of clashesOf(model, index, slot)) {
      const [a, b] = isBefore(slot, other) ? [slot, other] : [other, slot];
      const clash = { a: partOf(a), b: partOf(b), minute, rule };
      if (isSooner(clash, first)) first = clash;
    }
  }
  return first;
}

/**
 * What keeps a part off each stand, by the stand's place: null where it would fit.
 * @param {Model} model @param {Index} index @param {Visit} visit @param {number} part
 * @returns {(null | {by: Unfit} | {clash: Clash})[]}
 */
export function fitsOf(model, index, visit, part) {
  const type = model.typeOf.get(visit.type);
  return model.stands.map((_, stand) => {
    const by = unfitOf(model, stand, type);
    if (by !== null) return { by };
    const clash = firstClash(model, index, [slotOn(model, visit, part, stand)]);
    return clash === null ? null : { clash };
  });
}

/**
 * The clashes of aircraft that are both on block, each from its first minute of those from `begin` up to `end`.
 * @param {Model} model @param {Index} index @param {number} begin @param {number} end
 * @returns {(Clash & {stands: [number, number]})[]}
 */
export function alarmsOf(model, index, begin, end) {
  const alarms = [];
  for (const slot of index.flat().filter((it) => it.actual && it.from < end && it.end > begin)) {
    for (const near of model.near[slot.stand]) {
      for (const other of index[near.stand]) {
        if (!other.actual || other.visit === slot.visit || !isBefore(slot, other)) continue;
        const met = meetingAt(near, slot, other, begin);
        if (met !== null && met.minute < end) alarms.push({ ...met, a: partOf(slot), b: partOf(other), stands: [slot.stand, other.stand] });
      }
    }
  }
  return alarms.sort((one, two) => (isSooner(one, two) ? -1 : 1));
}
