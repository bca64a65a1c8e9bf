// Where aircraft would rather stand: the file of preferences (docs/reference/planner.md), and what a part costs on each stand by it. The server
// does not read that file, and a preference refuses nothing.

import { unfitOf } from "./rules.js";

/**
 * @typedef {import("./rules.js").Model} Model
 * @typedef {{stand: string, kind: string, terminal: string, area: string, airlines: string[], types: string[], cost: number}} Preference
 */

const FIELDS = ["stand", "kind", "terminal", "area", "airlines", "types", "cost"];
const KINDS = ["contact", "remote", "cargo"];
const AIRLINE = /^([A-Z]{3}|[A-Z][A-Z0-9]|[0-9][A-Z])$/;

const words = (value) => (value === "" ? [] : value.split(" "));
const strayIn = (value, isKnown, what) => {
  const stray = words(value).find((word) => !isKnown(word));
  return stray === undefined ? null : `has '${stray}', which is no ${what}`;
};

// What is wrong with the value of a field, or null.
const FAULTS = {
  stand: (value, model, lineOf) => {
    if (lineOf.has(value)) return `is in line ${lineOf.get(value)} already`;
    return model.standOf.has(value) ? null : "is no stand of the airport";
  },
  kind: (value) => (KINDS.includes(value) ? null : `is none of ${KINDS.join(", ")}`),
  terminal: (value) => (/^[A-Z0-9]{0,6}$/.test(value) ? null : "is not up to 6 capitals or digits"),
  area: (value) => (["", "schengen", "other"].includes(value) ? null : "is neither empty nor schengen nor other"),
  airlines: (value) => strayIn(value, (word) => AIRLINE.test(word), "airline: three capitals, or two capitals or digits, not both digits"),
  types: (value, model) => strayIn(value, (word) => model.typeOf.has(word), "type of the airport"),
  cost: (value) => (/^[0-9]{1,3}$/.test(value) ? null : "is not a number of 1 to 3 digits"),
};

/**
 * The records of a file of preferences; or its first fault, with the line and the column.
 * @param {string} text @param {Model} model
 * @returns {{records: Preference[]} | {fault: string}}
 */
export function readPreferences(text, model) {
  const [head, ...lines] = text.replace(/^\uFEFF/, "").split(/\r?\n/);
  if (head !== FIELDS.join(",")) return { fault: `1:1: the first line is '${head}', and not '${FIELDS.join(",")}'` };
  const records = [];
  const lineOf = new Map();
  for (const [place, line] of lines.entries()) {
    if (line === "") continue;
    const values = line.split(",");
    const fault = faultOf(values, line, model, lineOf);
    if (fault !== null) return { fault: `${place + 2}:${fault}` };
    lineOf.set(values[0], place + 2);
    const [stand, kind, terminal, area, airlines, types, cost] = values;
    records.push({ stand, kind, terminal, area, airlines: words(airlines), types: words(types), cost: Number(cost) });
  }
  return { records };
}

function faultOf(values, line, model, lineOf) {
  if (values.length !== FIELDS.length) return `1: it has ${values.length} fields, and not ${FIELDS.length}: '${line}'`;
  let column = 1;
  for (const [place, field] of FIELDS.entries()) {
    const fault = FAULTS[field](values[place], model, lineOf);
    if (fault !== null) return `${column}: ${field} '${values[place]}' ${fault}`;
    column += values[place].length + 1;
  }
  return null;
}

/**
 * The airline of a flight such as LH123 or DLH4K.
 * @param {string} flight
 */
export const airlineOf = (flight) => flight.slice(0, /[A-Z]/.test(flight.charAt(2)) ? 3 : 2);

// How many of a stand's airlines and types a part is not among; and whether the stand names it.
const misses = ({ airlines, types }, airline, type) =>
  (airlines.length > 0 && !airlines.includes(airline) ? 1 : 0) + (types.length > 0 && !types.includes(type) ? 1 : 0);
const isMeant = (it, airline, type) => it.airlines.length + it.types.length > 0 && misses(it, airline, type) === 0;

// Whether a terminal or an area is none of those where the part is at home.
const isElsewhere = (place, home) => place !== "" && home.size > 0 && !home.has(place) && !home.has("");

/**
 * What a part of this airline and type costs on each stand, by its place: its record's cost, once for each column that does not suit. null
 * where the type does not fit.
 * @param {Model} model @param {Preference[]} records @param {string} airline "" if it has no flight @param {string} type
 * @returns {(number | null)[]}
 */
export function costsOf(model, records, airline, type) {
  const fits = model.stands.map((_, stand) => unfitOf(model, stand, model.typeOf.get(type)) === null);
  const meant = records.filter((it) => isMeant(it, airline, type) && fits[model.standOf.get(it.stand)]);
  const homes = (key) => new Set(meant.map((it) => it[key]));
  const [kinds, terminals, areas] = [meant.length === 0 ? new Set(["contact"]) : homes("kind"), homes("terminal"), homes("area")];
  const costs = fits.map((is) => (is ? 0 : null));
  for (const it of records) {
    const wrong = misses(it, airline, type) + [!kinds.has(it.kind), isElsewhere(it.terminal, terminals), isElsewhere(it.area, areas)].filter(Boolean).length;
    const place = model.standOf.get(it.stand);
    if (fits[place]) costs[place] = it.cost * wrong;
  }
  return costs;
}

/**
 * The places of the stands where a part would rather stand: those that cost least of those that its type fits. There are none where all cost
 * the same.
 * @param {(number | null)[]} costs
 * @returns {Set<number>}
 */
export function preferredOf(costs) {
  const known = costs.filter((cost) => cost !== null);
  const least = Math.min(...known);
  if (least === Math.max(...known)) return new Set();
  return new Set(costs.flatMap((cost, place) => (cost === least ? [place] : [])));
}
