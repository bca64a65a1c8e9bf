// Finds flights, stands and types by what was typed.

import { readFlight } from "./mvt.js";
import { isLive } from "./visits.js";

/**
 * @typedef {import("./rules.js").Model} Model
 * @typedef {import("./rules.js").Visit} Visit
 * @typedef {{kind: "flight", words: string, visit: number, part: number, score: number} |
 *   {kind: "stand", words: string, stand: number, score: number} | {kind: "type", words: string, type: string, score: number}} Found  the
 *   lower the score, the better
 */

const EXACT = 0;
const BEGINS = 1;
const NUMBER = 2;
const CONTAINS = 3;

// A flight as people type it: capitals, without blanks, and without zeros before the number.
function plain(text) {
  const word = text.toUpperCase().replace(/[\s/]+/g, "");
  const flight = readFlight(word);
  return flight === null ? word : `${flight.airline}${flight.number}${flight.suffix}`;
}

function scoreOf(word, text) {
  if (word === text) return EXACT;
  if (word.startsWith(text)) return BEGINS;
  return word.includes(text) ? CONTAINS : null;
}

// "123" is also the number of a flight.
function flightScore(word, text) {
  const number = /^\d+$/.test(text) ? readFlight(word)?.number : undefined;
  return number === Number(text) ? NUMBER : scoreOf(word, text);
}

const bestOf = (scores) => scores.filter((it) => it !== null).sort((one, other) => one - other)[0] ?? null;

function visitScore(visit, text) {
  const flights = [visit.arr, visit.dep].filter((it) => it !== null).map((it) => flightScore(plain(it.flight), text));
  return bestOf([...flights, scoreOf(visit.name, text)]);
}

const visitWords = ({ arr, dep, name, type }) => `${[arr, dep].filter((it) => it !== null).map((it) => it.flight).join(" → ") || name} ${type}`;

// The part that is on at a minute, or the next one.
function partAt({ parts }, now) {
  const place = parts.findIndex(({ to }) => to >= now);
  return place < 0 ? parts.length : place + 1;
}

/**
 * What the text finds, best first: of equal ones the flights by how near they are to the present minute, then stands, then types.
 * @param {Model} model @param {Map<number, Visit>} visits @param {string} text @param {number} now @param {number} [most]
 * @returns {Found[]}
 */
export function found(model, visits, text, now, most = 12) {
  const wanted = plain(text);
  if (wanted === "") return [];
  const flights = [...visits.values()].map((visit) => ({ visit, part: partAt(visit, now), score: visitScore(visit, wanted) }))
    .filter(({ score }) => score !== null)
    .sort((one, other) => one.score - other.score || farness(one, now) - farness(other, now))
    .map(({ visit, part, score }) => ({ kind: "flight", words: visitWords(visit), visit: visit.visit, part, score }));
  const named = (list, make) => list.map(({ name }, place) => ({ ...make(name, place), words: name, score: scoreOf(name, wanted) }))
    .filter(({ score }) => score !== null);
  const stands = named(model.stands, (_, stand) => ({ kind: "stand", stand }));
  const types = named(model.types, (type) => ({ kind: "type", type }));
  return [...flights, ...stands, ...types].sort((one, other) => one.score - other.score).slice(0, most);
}

// How far a part is from the present minute; visits that have left or are cancelled come after all others.
function farness({ visit, part }, now) {
  const { from, to } = visit.parts[part - 1];
  return (isLive(visit) ? 0 : 1e6) + Math.max(0, from - now, now - to);
}
