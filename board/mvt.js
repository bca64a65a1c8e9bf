// The text of a movement message as the server reads it, and what it says of which visit (docs/reference/messages.md).

import { DAY } from "./rules.js";
import { arrived, departed, isLive, offExpected, pushed } from "./visits.js";

/**
 * @typedef {import("./rules.js").Model} Model
 * @typedef {import("./rules.js").Visit} Visit
 * @typedef {{flight: string, day: number, registration: string, station: string, AD: string[] | null, AA: string[] | null, EA: string[] | null,
 *   ED: string[] | null, to: string | null}} Message  the times of its elements as they are written, and the station of EA
 * @typedef {"long" | "identifier" | "flight" | "element" | "twice"} Fault
 * @typedef {{visit: Visit, after: Visit, says: "EA" | "AA" | "AA2" | "ED" | "AD"}} Effect  the visit before and after
 */

const MOST_BYTES = 4000;
const MOST_LINES_BEFORE = 20;
const TIME = "(?:(?:0[1-9]|[12]\\d|3[01])?(?:[01]\\d|2[0-3])[0-5]\\d)";
const ELEMENTS = { AD: `^AD(${TIME})(?:/(${TIME}))?$`, AA: `^AA(${TIME})(?:/(${TIME}))?$`, EA: `^EA(${TIME})$`, ED: `^ED(${TIME})$` };
const FORMS = Object.fromEntries(Object.entries(ELEMENTS).map(([kind, form]) => [kind, new RegExp(form)]));
const FLIGHT_LINE = /^([A-Z0-9]{3,8})\/(0[1-9]|[12]\d|3[01])\.([A-Z0-9-]{1,10})\.([A-Z]{3})$/;

const bytesOf = (text) => new TextEncoder().encode(text).length;

/**
 * A flight in its pieces; or null.
 * @param {string} text
 * @returns {{airline: string, number: number, suffix: string} | null}
 */
export function readFlight(text) {
  const found = /^([A-Z]{3}|[A-Z][A-Z0-9]|[0-9][A-Z])(\d{1,4})([A-Z]?)$/.exec(text);
  return found === null ? null : { airline: found[1], number: Number(found[2]), suffix: found[3] };
}

/**
 * Whether two flights are the same, however many zeros their numbers begin with.
 * @param {string} one @param {string} other
 */
export function sameFlight(one, other) {
  const [first, second] = [readFlight(one), readFlight(other)];
  return first !== null && second !== null && first.airline === second.airline && first.number === second.number && first.suffix === second.suffix;
}

/**
 * The message of a text, or its first fault; `at` is the byte of the word that is at fault.
 * @param {string} text
 * @returns {{message: Message} | {fault: Fault, at?: number}}
 */
export function readMvt(text) {
  if (bytesOf(text) > MOST_BYTES) return { fault: "long" };
  let at = 0;
  const lines = text.split("\n").map((line) => {
    const begins = at;
    at += line.length + 1;
    return { begins, text: line.replace(/\r$/, "").replace(/ +$/, "") };
  });
  const first = lines.slice(0, MOST_LINES_BEFORE + 1).findIndex((line) => line.text === "MVT");
  if (first < 0) return { fault: "identifier" };
  const place = lines.findIndex((line, it) => it > first && line.text !== "");
  const head = place < 0 ? null : FLIGHT_LINE.exec(lines[place].text);
  if (head === null || readFlight(head[1]) === null) return { fault: "flight" };
  const [, flight, day, registration, station] = head;
  const message = { flight, day: Number(day), registration, station, AD: null, AA: null, EA: null, ED: null, to: null };
  const fault = readElements(message, lines.slice(place + 1));
  return fault === null ? { message } : { fault: fault.fault, at: bytesOf(text.slice(0, fault.at)) };
}

// Reads the elements of these lines into the message, up to the supplementary information; or gives the first fault.
function readElements(message, lines) {
  for (const line of lines) {
    if (line.text.startsWith("SI")) return null;
    if (!/^(AD|AA|EA|ED)(?![A-Z])/.test(line.text)) continue;
    const ends = readLine(message, line);
    if (ends !== null) return ends.fault === undefined ? null : ends;
  }
  return null;
}

// Reads the words of an element line. Gives null where the reading goes on, {fault, at} where it fails, and {} where SI ends it.
function readLine(message, line) {
  const words = [...line.text.matchAll(/[^ ]+/g)];
  for (let place = 0; place < words.length; place++) {
    const [word] = words[place];
    if (word.startsWith("SI")) return {};
    if (!/^(AD|AA|EA|ED)(?![A-Z])/.test(word)) return null;
    const kind = word.slice(0, 2);
    const found = FORMS[kind].exec(word);
    const station = words[place + 1]?.[0] ?? "";
    if (kind === "EA" && found !== null && !/^[A-Z]{3}$/.test(station)) return null;
    if (found === null) return { fault: "element", at: line.begins + words[place].index };
    if (message[kind] !== null) return { fault: "twice", at: line.begins + words[place].index };
    message[kind] = found.slice(1).filter((time) => time !== undefined);
    if (kind === "EA") {
      message.to = station;
      place += 1;
    }
  }
  return null;
}

// ---------------------------------------------------------------- What it says

const dateOf = (model, day) => new Date(Date.parse(`${model.first_day}T00:00Z`) + (day - 1) * DAY * 60000);

/**
 * The day of the month of a day of the plan; day 0 is the one before the first.
 * @param {Model} model @param {number} day
 */
export const monthDayOf = (model, day) => dateOf(model, day).getUTCDate();

/**
 * The latest day of the plan, from `least` on, with this day of the month; or null.
 * @param {Model} model @param {number} monthDay @param {number} least
 */
export function planDayOf(model, monthDay, least) {
  for (let day = model.days; day >= least; day--) {
    if (monthDayOf(model, day) === monthDay) return day;
  }
  return null;
}

/**
 * The minute that a time of a message means for a visit that is scheduled at a minute; or null where it is outside the plan.
 * @param {Model} model @param {string} time @param {number} scheduled
 * @returns {number | null}
 */
export function minuteOf(model, time, scheduled) {
  const clock = Number(time.slice(-4, -2)) * 60 + Number(time.slice(-2));
  if (time.length === 6) {
    const day = planDayOf(model, Number(time.slice(0, 2)), 1);
    return day === null ? null : (day - 1) * DAY + clock;
  }
  const before = Math.floor((scheduled - clock) / DAY) * DAY + clock;
  const minute = scheduled - before < before + DAY - scheduled ? before : before + DAY;
  return minute >= 0 && minute < model.days * DAY ? minute : null;
}

// What a message says, and its time: by which station it is from.
function saidBy(model, { station, AD, AA, EA, ED, to }) {
  if (station !== model.station) return EA !== null && to === model.station ? { says: "EA", time: EA[0] } : null;
  if (AA !== null) return AA.length === 2 ? { says: "AA2", time: AA[1] } : { says: "AA", time: AA[0] };
  if (AD !== null) return { says: "AD", time: AD[0] };
  return ED === null ? null : { says: "ED", time: ED[0] };
}

const isArrival = (says) => says !== "AD" && says !== "ED";

/**
 * The visit that is neither gone nor cancelled that a message of this flight and day is about: the lowest numbered; or null.
 * @param {Map<number, Visit>} visits @param {boolean} arrives @param {string} flight @param {number} day
 * @returns {Visit | null}
 */
export function meantOf(visits, arrives, flight, day) {
  let meant = null;
  for (const visit of visits.values()) {
    const key = arrives ? visit.arr : visit.dep;
    if (!isLive(visit) || key === null || key.day !== day || !sameFlight(key.flight, flight)) continue;
    if (meant === null || visit.visit < meant.visit) meant = visit;
  }
  return meant;
}

/**
 * What a message does, or in words why nothing. It looks at the visits that are given alone.
 * @param {Model} model @param {Map<number, Visit>} visits @param {Message} message
 * @returns {Effect | {none: string}}
 */
export function effectOf(model, visits, message) {
  const said = saidBy(model, message);
  if (said === null) return { none: "it says nothing of this airport" };
  const arrives = isArrival(said.says);
  const day = planDayOf(model, message.day, 0);
  const visit = day === null ? null : meantOf(visits, arrives, message.flight, day);
  if (visit === null) return { none: `no visit that is expected or on block ${arrives ? "arrives" : "leaves"} by flight ${message.flight} of that day` };
  const minute = minuteOf(model, said.time, arrives ? visit.on : visit.off);
  if (minute === null) return { none: "its time is outside the plan" };
  return outcomeOf(model, visit, said.says, minute);
}

const ON_BLOCK = { none: "the visit is on block already" };

function outcomeOf(model, visit, says, minute) {
  const told = (after) => ({ visit, after, says });
  if (says === "ED") return told(offExpected(model, visit, minute));
  if (says === "AD") {
    const after = departed(visit, minute);
    return after === null ? { none: "no part of the visit has begun then" } : told(after);
  }
  if (visit.state === "onblock") return ON_BLOCK;
  if (says === "AA2") return told(arrived(model, visit, 1, minute, null));
  const on = minute + model.taxi_in;
  return on < model.days * DAY ? told(pushed(model, visit, 1, on)) : { none: "the taxi-in would end after the plan" };
}
