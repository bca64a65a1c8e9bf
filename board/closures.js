// A stand that is closed: a visit of its own is put on it for the minutes (docs/reference/board.md, Closures). A name is never free again, so each
// closure has a number of its own.

import { DAY, clashesOf, indexOf, slotOn, unfitOf } from "./rules.js";
import { flightOf, isLive } from "./visits.js";

/**
 * @typedef {import("./rules.js").Model} Model
 * @typedef {import("./rules.js").PartId} PartId
 * @typedef {import("./rules.js").Type} Type
 * @typedef {import("./rules.js").Visit} Visit
 * @typedef {import("./visits.js").Edit} Edit
 * @typedef {PartId & {minute: number, rule: import("./rules.js").Rule}} InTheWay
 * @typedef {{name: string, visit: {name: string, type: string, class: 0, on: number, off: number, arr: null, dep: null}, inTheWay: InTheWay[],
 *   edits: (visit: number) => Edit[]}} Closing
 */

const NAME = /^CLOSED-(\d{1,5})$/;
const MOST = 99999;

/** @param {Visit} visit */
export const isClosure = (visit) => visit.class === 0 && NAME.test(visit.name);

/**
 * The types by which a stand can be closed, the narrowest first, since it keeps the fewest neighbours from their stands.
 * @param {Model} model @param {number | null} [stand]  of this place, or else of any
 * @returns {Type[]}
 */
export function closureTypes(model, stand = null) {
  const places = stand === null ? [...model.stands.keys()] : [stand];
  return model.types.filter((type) => places.every((place) => unfitOf(model, place, type) === null)).sort((one, other) => one.span - other.span);
}

// A name that no visit that is read has. After each that turns out to be taken the number goes further.
function nameAfter(visits, tried) {
  const numbers = [...visits.values()].map(({ name }) => Number(NAME.exec(name)?.[1] ?? 0));
  return Math.max(0, ...numbers) + 2 ** tried;
}

/**
 * What closes a stand: POST /visits with `visit`; then, with the number that it gets, POST /commits with `edits(number)`, which takes the planned
 * parts that are in the way off their stands. If the commit is refused, the visit is cancelled. If the name is refused, it is asked again with one
 * more in `tried`.
 * @param {Model} model @param {Map<number, Visit>} visits
 * @param {{stand: string, from: number, to: number, type: string, tried?: number}} wanted
 * @returns {Closing | {refused: string}}
 */
export function closing(model, visits, { stand, from, to, type: named, tried = 0 }) {
  const place = model.standOf.get(stand);
  const type = model.typeOf.get(named);
  const fault = faultOf(model, place, stand, type, named, from, to);
  if (fault !== null) return { refused: fault };
  const number = nameAfter(visits, tried);
  if (number > MOST) return { refused: "the numbers of closures are used up" };
  const name = `CLOSED-${number}`;
  const slot = slotOn(model, { visit: 0, type: named, parts: [{ from, to, actual: false }] }, 1, place);
  const clashes = clashesOf(model, indexOf(model, visits.values()), slot);
  const firm = clashes.find(({ other }) => other.actual || isClosure(visits.get(other.visit)));
  if (firm !== undefined) return { refused: firmWords(model, visits, firm) };
  const parts = new Map(clashes.map(({ other: { visit, part }, minute, rule }) => [`${visit}.${part}`, { visit, part, minute, rule }]));
  return {
    name,
    visit: { name, type: named, class: 0, on: from, off: to, arr: null, dep: null },
    inTheWay: [...parts.values()],
    edits: (visit) => [...[...parts.values()].map((it) => ({ lift: { visit: it.visit, part: it.part } })), { put: { visit, part: 1, stand } }],
  };
}

function faultOf(model, place, stand, type, named, from, to) {
  if (place === undefined) return `the airport has no stand ${stand}`;
  if (type === undefined) return `the airport has no type ${named}: choose the type of closures in the settings`;
  if (unfitOf(model, place, type) !== null) return `a ${named} does not fit ${stand}: choose another type of closures in the settings`;
  if (to - from < type.least) return `a closure by a ${named} lasts ${type.least} minutes at least`;
  return from < 0 || to > model.days * DAY ? "the closure does not lie in the plan" : null;
}

function firmWords(model, visits, { other }) {
  const visit = visits.get(other.visit);
  const stand = model.stands[other.stand].name;
  return isClosure(visit) ? `${stand} is closed already by ${visit.name}` : `${flightOf(visit)} is in place on ${stand}`;
}

/**
 * What opens a closed stand: POST /cancels with `cancel`.
 * @param {Visit} visit
 * @returns {{cancel: {visit: number}} | {refused: string}}
 */
export function opening(visit) {
  if (!isClosure(visit)) return { refused: "that is no closure" };
  if (visit.state === "onblock") return { refused: "the closure was reported on block: report it off block" };
  return isLive(visit) ? { cancel: { visit: visit.visit } } : { refused: "the stand is open again already" };
}
