// Warnings before an alarm: an aircraft still stands where another is due, or a part without a stand comes to its time. The server's plan has
// none of this: for it an aircraft leaves at its expected end. Minutes are those of the plan.

import { isClosure } from "./closures.js";
import { fitsOf, indexOf, letterOf, meetingOf, slotOn } from "./rules.js";
import { isLive, stateOf } from "./visits.js";

/**
 * @typedef {import("./rules.js").Model} Model
 * @typedef {import("./rules.js").Slot} Slot
 * @typedef {import("./rules.js").Visit} Visit
 * @typedef {{visit: number, part: number, stand: number, rule: import("./rules.js").Rule, overdue: number}} Standing  an aircraft in the way, and for
 *   how many minutes it should have been gone
 * @typedef {{key: string, kind: "occupied" | "needed" | "nostand", level: "watch" | "amber" | "red", minute: number, left: number, visit: number,
 *   part: number, how: "comes" | "here" | "tow", stand: number | null, by: Standing | null, fits: number[]}} Warning  `left` minutes from now,
 *   `minute` is when the two would meet or the part begins; `stand` is the part's place, or the one that it lost; `fits` are the stands that would fix it, best first
 */

// While an aircraft is expected to leave in time, there is nothing to be done.
const LEVELS = { watch: 0, amber: 1, red: 2 };

// The slots of aircraft that are on their stands now.
const presentOf = (index, visits, now) => index.flat().filter((slot) =>
  slot.actual && slot.from <= now && ["onblock", "overdue"].includes(stateOf(visits.get(slot.visit), slot.part, now)));

// An aircraft that stays where it is: nobody knows until when.
const staying = (slot, now) => ({ ...slot, to: Math.max(slot.to, now), end: Infinity });

// When a slot would meet an aircraft that stays, and by which rule; or null.
const meetingWith = (model, slot, present, now) =>
  (present.visit === slot.visit ? null : meetingOf(model, slot, staying(present, now), Math.max(slot.from, now)));

/**
 * The aircraft that should have left and are in the way of a part on this stand, if the part begins within so many minutes.
 * @param {Model} model @param {import("./rules.js").Index} index @param {Map<number, Visit>} visits @param {Visit} visit @param {number} part
 * @param {number} stand @param {number} now @param {number} [within]
 * @returns {Standing[]}
 */
export function standingIn(model, index, visits, visit, part, stand, now, within = 60) {
  const slot = slotOn(model, visit, part, stand);
  if (slot.from > now + within) return [];
  const late = presentOf(index, visits, now).filter(({ to }) => to < now);
  return late.flatMap((present) => standingBy(meetingWith(model, slot, present, now), present, now));
}

const standingBy = (met, { visit, part, stand, to }, now) =>
  (met === null ? [] : [{ visit, part, stand, rule: met.rule, overdue: Math.max(0, now - to) }]);

/**
 * All warnings, by minute.
 * @param {Model} model @param {Map<number, Visit>} visits @param {number} now @param {{within?: number, red?: number}} [minutes]  how long before
 *   there is a warning, and how long before it is red
 * @returns {Warning[]}
 */
export function soonOf(model, visits, now, { within = 30, red = 10 } = {}) {
  const index = indexOf(model, visits.values());
  const present = presentOf(index, visits, now);
  const round = { model, visits, now, within, red, present, late: withoutLate(index, present, now, within) };
  const warnings = [];
  for (const visit of visits.values()) {
    if (!isLive(visit)) continue;
    visit.parts.forEach((it, place) => {
      if (it.actual || it.from - now > within || it.to <= now) return;
      // No other stand mends a closure that lost its own: that is an event.
      if (it.stand === null && isClosure(visit)) return;
      warnings.push(...(it.stand === null ? [unplaced(round, visit, place + 1)] : occupied(round, visit, place + 1)));
    });
  }
  return warnings.sort((one, other) => one.minute - other.minute || LEVELS[other.level] - LEVELS[one.level] || one.visit - other.visit);
}

// The slots, with those of overdue aircraft as long as they may still be in the way.
function withoutLate(index, present, now, within) {
  const late = new Map(present.filter(({ to }) => to <= now).map((slot) => [slot, { ...slot, to: now, end: now + within + 1 }]));
  return index.map((slots) => slots.map((slot) => late.get(slot) ?? slot));
}

const levelOf = ({ red }, left) => (left <= red ? "red" : "amber");

// The warnings of a part on a stand where another aircraft still is.
function occupied(round, visit, part) {
  const { model, now, within, present } = round;
  const slot = slotOn(model, visit, part, model.standOf.get(visit.parts[part - 1].stand));
  return present.flatMap((it) => {
    const met = meetingWith(model, slot, it, now);
    if (met === null || met.minute - now > within) return [];
    const level = it.to > now ? "watch" : levelOf(round, met.minute - now);
    return [warning(round, visit, part, {
      kind: isEarly(visit, part) ? "needed" : "occupied", level, minute: met.minute, stand: slot.stand, by: standingBy(met, it, now)[0],
    })];
  });
}

const isEarly = (visit, part) => part === 1 && visit.parts[0].from < visit.on;

// The warning of a part without a stand: it needs the one that it lost, if it is early and the aircraft that kept that stand is still there.
function unplaced(round, visit, part) {
  const { model, now, present } = round;
  const { bump, from } = visit.parts[part - 1];
  const holder = bump === null ? undefined : present.find((it) => it.visit === bump.blocker.visit && it.part === bump.blocker.part);
  const isNeeded = holder !== undefined && isEarly(visit, part);
  return warning(round, visit, part, {
    kind: isNeeded ? "needed" : "nostand", level: levelOf(round, from - now), minute: from,
    stand: bump === null ? null : model.standOf.get(bump.stand), by: isNeeded ? standingBy(bump, holder, now)[0] : null,
  });
}

function warning(round, visit, part, { kind, level, minute, stand, by }) {
  const key = `${kind} ${visit.visit}.${part}${by === null ? "" : ` ${by.visit}.${by.part}`}`;
  const fits = level === "watch" ? [] : mending(round, visit, part);
  return { key, kind, level, minute, left: minute - round.now, visit: visit.visit, part, how: howOf(visit, part), stand, by, fits };
}

// Whether the aircraft comes to its stand from the air or from another stand, or is here already.
const howOf = ({ state }, part) => (state === "expected" ? "comes" : part === 1 ? "here" : "tow");

// The stands that take the part, with nobody overdue in the way: of the least letters first, and then in the airport's order.
function mending({ model, late }, visit, part) {
  const letter = letterOf(model.typeOf.get(visit.type).span);
  const spare = (stand) => model.stands[stand].letter.charCodeAt(0) - letter.charCodeAt(0);
  return fitsOf(model, late, visit, part).flatMap((off, stand) => (off === null ? [stand] : [])).sort((one, other) => spare(one) - spare(other));
}

const NO_STAND = {
  comes: (time) => `comes at ${time} and has no stand`,
  here: (time) => `is here since ${time} and has no stand`,
  tow: (time) => `is to be towed at ${time} and has no stand to go to`,
};

/**
 * A warning in words. `name` writes a part, `stand` a place, `when` a minute.
 * @param {Warning} warning @param {{name: (part: {visit: number, part: number}) => string, stand: (place: number) => string,
 *   when: (minute: number) => string}} say
 */
export function soonWords({ kind, minute, visit, part, how, stand, by }, { name, stand: place, when }) {
  const what = name({ visit, part });
  if (by === null) return `${what} ${NO_STAND[how](when(minute))}${stand === null ? "" : `, it lost ${place(stand)}`}`;
  const where = by.stand === stand ? "there" : `on ${place(by.stand)}`;
  const since = by.overdue > 0 ? `, ${by.overdue} min over its time` : "";
  const early = kind === "needed" ? ", which is early" : "";
  return `${place(stand)} is not clear for ${what} at ${when(minute)}${early}: ${name(by)} is still ${where}${since}`;
}
