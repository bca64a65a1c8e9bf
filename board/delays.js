// Scheduled, expected and actual times of a visit: its delays, where a part was scheduled, and what should have happened by now and has not.

import { isLive } from "./visits.js";

/**
 * @typedef {import("./rules.js").Visit} Visit
 * @typedef {{scheduled: number, time: number, actual: boolean, delay: number}} Time  `delay` is in minutes, and below 0 if it is early
 * @typedef {{part: number, minutes: number}} Overrun
 * @typedef {{on: Time, off: Time, shorter: number, late: (Overrun & {kind: "arrival" | "tow"}) | null, overdue: Overrun | null}} Times
 */

/** @returns {Time} */
const timeOf = (scheduled, time, actual) => ({ scheduled, time, actual, delay: time - scheduled });

/**
 * The times of a visit at a minute: on and off block; by how many minutes its stay is shorter than scheduled; whether it should be here, or be
 * towed, and is not; and whether it should have left and has not.
 * @param {Visit} visit @param {number} now
 * @returns {Times}
 */
export function timesOf(visit, now) {
  const { from } = visit.parts[0];
  const { to } = visit.parts.at(-1);
  return {
    on: timeOf(visit.on, from, visit.state === "onblock" || visit.state === "gone"),
    off: timeOf(visit.off, to, visit.state === "gone"),
    shorter: isLive(visit) ? Math.max(0, visit.off - visit.on - (to - from)) : 0,
    late: lateOf(visit, now),
    overdue: overdueOf(visit, now),
  };
}

// The number of the part that the aircraft is in; 0 before it comes.
function presentPart({ parts, state }) {
  if (state !== "onblock") return 0;
  return parts.reduce((last, it, place) => (it.actual ? place + 1 : last), 1);
}

function lateOf(visit, now) {
  if (!isLive(visit)) return null;
  const part = presentPart(visit) + 1;
  const next = visit.parts[part - 1];
  return next === undefined || next.from >= now ? null : { part, minutes: now - next.from, kind: part === 1 ? "arrival" : "tow" };
}

function overdueOf(visit, now) {
  const part = presentPart(visit);
  return part === 0 || visit.parts[part - 1].to >= now ? null : { part, minutes: now - visit.parts[part - 1].to };
}

/**
 * Where a part was scheduled, if that is not where it is; or null. A visit has scheduled times for its first beginning and its last end alone.
 * @param {Visit} visit @param {number} part
 * @returns {{from: number, to: number} | null}
 */
export function ghostOf(visit, part) {
  const it = visit.parts[part - 1];
  const from = part === 1 ? visit.on : it.from;
  const to = part === visit.parts.length ? visit.off : it.to;
  return (from === it.from && to === it.to) || from >= to ? null : { from, to };
}

/**
 * The delay of a part, by which its bar is coloured: that of its beginning if it is the first, and at its end that of the last.
 * @param {Visit} visit @param {number} part
 * @returns {{begin: number, end: number}}
 */
export function delaysOf(visit, part) {
  const it = visit.parts[part - 1];
  return { begin: part === 1 ? it.from - visit.on : 0, end: part === visit.parts.length ? it.to - visit.off : 0 };
}

/**
 * How much a delay matters.
 * @param {number} delay
 * @returns {"early" | "ontime" | "late" | "verylate"}
 */
export function delayBand(delay) {
  if (delay < -5) return "early";
  if (delay <= 5) return "ontime";
  return delay <= 30 ? "late" : "verylate";
}

/**
 * A delay as it stands at a bar: "+25", "−10", or nothing.
 * @param {number} delay
 */
export const delayWords = (delay) => (delay === 0 ? "" : delay > 0 ? `+${delay}` : `−${-delay}`);
