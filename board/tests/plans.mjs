// What the tests share: the demo airport of docs/reference/files.md as GET /airport tells it, an airport of folding wing tips, and visits.

import { letterOf, modelOf } from "../rules.js";

const stand = (name, frontage, centre, letter, half_of = null, buffer = 10) => ({ buffer, centre, frontage, half_of, letter, name });
const type = (name, span, least, parked = span, fold = 0) => ({ fold, least, letter: letterOf(span), name, parked, span });

const TYPES = [
  type("A320", 3580, 40), type("B738", 3579, 40), type("B77W", 6480, 60), type("AT76", 2705, 25), type("B190", 1767, 20), type("A388", 7975, 90),
  type("B779", 7175, 90, 6485, 5),
];

export const DEMO = {
  days: 3, first_day: "2026-03-27", station: "APR", taxi_in: 5, tow: 20, version: 0,
  frontages: [{ name: "N", objects: [0] }, { name: "S", objects: [0] }, { name: "R", objects: [] }, { name: "T", objects: [27500] }],
  stands: [
    stand("N1", "N", 4000, "C"), stand("N2", "N", 8030, "C"), stand("N3", "N", 12059, "E"), stand("S1", "S", 6000, "C"), stand("S2", "S", 8890, "C"),
    stand("S3", "S", 11779, "E"), stand("S4", "S", 14670, "C"), stand("S5", "S", 17559, "C"), stand("12", "R", 10000, "E"),
    stand("12L", "R", 8400, "C", "12"), stand("12R", "R", 11600, "C", "12"), stand("14", "T", 10000, "F"), stand("15", "T", 25000, "E"),
  ],
  pairs: [{ a: "14", b: "15", la: "E", lb: "C" }],
  types: TYPES,
};

export const demo = modelOf(DEMO);

/** The place of a stand of the demo airport. */
export const at = (name) => demo.standOf.get(name);

export const part = (from, to, on = null, more = {}) => ({ actual: false, bump: null, from, stand: on, to, ...more });

/** A visit with these parts, scheduled as they are, and of class 3 where nothing else is said. */
export function visit(number, kind, parts, more = {}) {
  return {
    arr: null, class: 3, dep: null, edited: 0, name: `V${number}`, off: parts.at(-1).to, on: parts[0].from, parts, state: "expected", type: kind,
    visit: number, ...more,
  };
}

/** A visit that is on a stand in fact. */
export const present = (number, kind, from, to, on, more = {}) =>
  visit(number, kind, [part(from, to, on, { actual: true })], { state: "onblock", ...more });

export const planOf = (...visits) => new Map(visits.map((it) => [it.visit, it]));
