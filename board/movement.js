// The movement message that says given times of a visit (docs/reference/messages.md): an estimate or a fact of its touchdown, or of its off block.

import { DAY } from "./rules.js";
import { effectOf, minuteOf, monthDayOf, planDayOf, meantOf, readMvt } from "./mvt.js";
import { isLive } from "./visits.js";

/**
 * @typedef {import("./rules.js").Model} Model
 * @typedef {import("./rules.js").Visit} Visit
 * @typedef {{says: "EA" | "AA2" | "ED" | "AD", text: string, words: string, after: Visit}} Movement  a message, what it says, and the visit after it
 * @typedef {{time: "on" | "off", why: string}} Cannot
 */

const two = (number) => String(number).padStart(2, "0");
const clock = (minute) => `${two(Math.floor((minute % DAY) / 60))}${two(minute % 60)}`;

// A minute as a message writes it: with the day of the month only where the clock time alone would mean another day.
function timeText(model, minute, scheduled) {
  const short = clock(minute);
  return minuteOf(model, short, scheduled) === minute ? short : `${two(monthDayOf(model, Math.floor(minute / DAY) + 1))}${short}`;
}

// The elements that say a time, the station that sends them, and what they say in words.
const FORMS = {
  EA(model, visit, minute) {
    const touchdown = timeText(model, minute - model.taxi_in, visit.on);
    return { says: "EA", elements: `EA${touchdown} ${model.station}`, isOurs: false, words: `expected to touch down at ${touchdown}` };
  },
  AA(model, visit, minute) {
    const times = [Math.max(0, minute - model.taxi_in), minute].map((it) => timeText(model, it, visit.on));
    return { says: "AA2", elements: `AA${times.join("/")}`, isOurs: true, words: `touched down at ${times[0]}, on block at ${times[1]}` };
  },
  ED: (model, visit, minute) => offForm(model, visit, minute, "ED", "expected off block at"),
  AD: (model, visit, minute) => offForm(model, visit, minute, "AD", "off block at"),
};

function offForm(model, visit, minute, says, words) {
  const time = timeText(model, minute, visit.off);
  return { says, elements: `${says}${time}`, isOurs: true, words: `${words} ${time}` };
}

/**
 * The messages that say these minutes on and off block of a visit, in the order in which they are to be sent, and why a time can't be said.
 * With `actual` they are facts, otherwise estimates, and one that the visit has already is not sent. The registration, and the station of an
 * estimate from elsewhere, are not known of a visit.
 * @param {Model} model @param {Map<number, Visit>} visits @param {Visit} visit
 * @param {{on?: number, off?: number, actual?: boolean, registration?: string}} wanted
 * @returns {{messages: Movement[], cannot: Cannot[]}}
 */
export function movementOf(model, visits, visit, { on, off, actual = false, registration = "UNKNOWN" }) {
  const messages = [];
  const cannot = [];
  let plan = visits;
  for (const [time, minute, kind] of [["on", on, actual ? "AA" : "EA"], ["off", off, actual ? "AD" : "ED"]]) {
    const it = plan.get(visit.visit);
    const is = time === "on" ? it.parts[0].from : it.parts.at(-1).to;
    if (minute === undefined || (!actual && minute === is)) continue;
    const made = messageOf(model, plan, it, time, minute, kind, registration);
    if (made.why === undefined) {
      messages.push(made);
      plan = new Map(plan).set(visit.visit, made.after);
    } else cannot.push({ time, why: made.why });
  }
  return { messages, cannot };
}

function messageOf(model, visits, visit, time, minute, kind, registration) {
  const why = obstacleOf(model, visits, visit, time, minute, kind);
  if (why !== null) return { why };
  const key = time === "on" ? visit.arr : visit.dep;
  const { says, elements, isOurs, words } = FORMS[kind](model, visit, minute);
  const elsewhere = model.station === "ZZZ" ? "YYY" : "ZZZ";
  const text = `MVT\n${key.flight}/${two(monthDayOf(model, key.day))}.${registration}.${isOurs ? model.station : elsewhere}\n${elements}\n`;
  const effect = effectOf(model, visits, readMvt(text).message);
  if (effect.none !== undefined) return { why: effect.none };
  const got = time === "on" ? effect.after.parts[0].from : effect.after.parts.at(-1).to;
  if (got !== minute) return { why: `its last part lasts ${model.typeOf.get(visit.type).least} minutes at least` };
  return { says, text, words: `${key.flight} ${words}`, after: effect.after };
}

// Why no message says this of a visit; or null.
function obstacleOf(model, visits, visit, time, minute, kind) {
  const arrives = time === "on";
  const key = arrives ? visit.arr : visit.dep;
  const flight = arrives ? "arrival" : "departure";
  if (!isLive(visit)) return "the visit has left or is cancelled";
  if (key === null) return `the visit has no ${flight} flight, and a message is about a flight`;
  if (arrives && visit.state === "onblock") return "the visit is on block already: a report corrects its minute";
  const first = kind === "EA" ? minute - model.taxi_in : minute;
  if (first < 0 || minute >= model.days * DAY) return "the time is outside the plan";
  if (planDayOf(model, monthDayOf(model, key.day), 0) !== key.day) return "a later day of the plan has the same day of the month";
  const meant = meantOf(visits, arrives, key.flight, key.day);
  if (meant === null) return `a message can't name the flight ${key.flight}`;
  return meant.visit === visit.visit ? null : `visit ${meant.name} has the same ${flight} flight, and a message would be about that`;
}
