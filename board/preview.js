// What a report, a message or a cancel would do if it were sent, by the rules by which the server resolves conflicts (docs/reference/messages.md): who
// would lose a stand, what can't be undone, and whether a person is to be asked first. It is as right as the visits that it is given are complete.

import { DAY, alarmsOf, clashesOf, indexOf, meetingOf, slotsOf, unfitOf } from "./rules.js";
import { effectOf, readMvt } from "./mvt.js";
import { arrived, byRank, cancelled, daysOf, departed, isLive } from "./visits.js";

/**
 * @typedef {import("./rules.js").Model} Model
 * @typedef {import("./rules.js").Clash} Clash
 * @typedef {import("./rules.js").PartId} PartId
 * @typedef {import("./rules.js").Visit} Visit
 * @typedef {Map<number, Visit>} Visits
 * @typedef {PartId & {stand: string, blocker: PartId, minute: number, rule: import("./rules.js").Rule}} Bumped
 * @typedef {{refused: {error: string} | null, none: string | null, visit: number | null, after: Visit | null, bumped: Bumped[], alarms: Clash[],
 *   notes: string[], final: string | null, asks: boolean}} Preview  `none` is why it has no effect, `alarms` are those that it would make, and
 *   `final` what can't be undone
 */

/**
 * The parts that would lose their stands if a visit were changed so, in order of visit and part.
 * @param {Model} model @param {Visits} visits @param {Visit} changed
 * @returns {Bumped[]}
 */
export function bumpedBy(model, visits, changed) {
  const plan = new Map(visits).set(changed.visit, changed);
  const index = indexOf(model, plan.values());
  const own = slotsOf(model, changed);
  const others = new Set(own.flatMap((slot) => clashesOf(model, index, slot).map(({ other }) => other)));
  const ranked = (slot) => ({ slot, visit: plan.get(slot.visit), part: slot.part });
  const all = [...own, ...others].map(ranked).sort(byRank);
  const kept = all.filter(({ slot }) => slot.actual);
  const bumped = [];
  for (const it of all.filter(({ slot }) => !slot.actual)) {
    const record = recordOf(model, kept, it.slot);
    if (record === null) kept.push(it);
    else bumped.push(record);
  }
  return bumped.sort((one, other) => one.visit - other.visit || one.part - other.part);
}

// The record of a part that the kept ones, those in place first and then by rank, leave no stand; or null.
function recordOf(model, kept, slot) {
  for (const { slot: other } of kept) {
    const met = other.visit === slot.visit ? null : meetingOf(model, slot, other);
    if (met !== null) {
      return { visit: slot.visit, part: slot.part, stand: model.stands[slot.stand].name, blocker: { part: other.part, visit: other.visit }, ...met };
    }
  }
  return null;
}

// The clashes of facts that a changed visit would make.
function alarmsBy(model, visits, changed) {
  const index = indexOf(model, new Map(visits).set(changed.visit, changed).values());
  const key = ({ a, b, rule }) => `${a.visit}.${a.part} ${b.visit}.${b.part} ${rule}`;
  const were = new Set(alarmsOf(model, indexOf(model, visits.values()), 0, Infinity).map(key));
  return alarmsOf(model, index, 0, Infinity).filter((it) => [it.a.visit, it.b.visit].includes(changed.visit) && !were.has(key(it)));
}

const NOTHING = { refused: null, none: null, visit: null, after: null, bumped: [], alarms: [], notes: [], final: null, asks: false };
const refusal = (error) => ({ ...NOTHING, refused: { error } });

/** @returns {Preview} */
function previewOf(model, visits, after, final = null, notes = []) {
  const bumped = bumpedBy(model, visits, after);
  const alarms = alarmsBy(model, visits, after);
  const asks = bumped.length + alarms.length + notes.length > 0 || final !== null;
  return { ...NOTHING, visit: after.visit, after, bumped, alarms, notes, final, asks };
}

const GONE = "Off block can't be undone: the visit has then left, and its later parts are removed.";

/**
 * @param {Model} model @param {Visits} visits
 * @param {{visit: number, on?: {part: number, stand: string, minute: number}, off?: {minute: number}}} said  the body of a report
 * @returns {Preview}
 */
export function previewReport(model, visits, { visit: number, on, off }) {
  if (on !== undefined && !model.standOf.has(on.stand)) return refusal("stand");
  const visit = visits.get(number);
  if (visit === undefined) return refusal("unknown");
  if (!isLive(visit)) return refusal("gone");
  if (on !== undefined && visit.parts[on.part - 1] === undefined) return refusal("part");
  const isOutside = (on ?? off).minute >= model.days * DAY;
  const after = isOutside ? null : on === undefined ? departed(visit, off.minute) : arrived(model, visit, on.part, on.minute, on.stand);
  if (after === null) return refusal("time");
  return on === undefined ? previewOf(model, visits, after, GONE) : previewOf(model, visits, after, null, notesOf(model, visit, on));
}

// What a person may have mistyped of a report on block.
function notesOf(model, visit, { part, stand }) {
  const planned = visit.parts[part - 1].stand;
  const by = unfitOf(model, model.standOf.get(stand), model.typeOf.get(visit.type));
  const notes = planned === null || planned === stand ? [] : [`It ${visit.parts[part - 1].actual ? "was reported" : "is planned"} on ${planned}.`];
  if (by === null) return notes;
  const why = by === "letter" ? "its code letter is too great" : `object ${by.object} of the frontage is too near`;
  return [...notes, `A ${visit.type} does not fit ${stand}: ${why}.`];
}

/**
 * @param {Model} model @param {Visits} visits @param {string} text  of a movement message
 * @returns {Preview}
 */
export function previewMessage(model, visits, text) {
  const read = readMvt(text);
  if (read.message === undefined) return { ...NOTHING, refused: { error: "mvt", ...read } };
  const effect = effectOf(model, visits, read.message);
  if (effect.none !== undefined) return { ...NOTHING, none: effect.none };
  return previewOf(model, visits, effect.after, effect.says === "AD" ? GONE : null);
}

/**
 * @param {Model} model @param {Visits} visits @param {{visit: number}} said  the body of a cancel
 * @returns {Preview}
 */
export function previewCancel(model, visits, { visit: number }) {
  const visit = visits.get(number);
  if (visit === undefined) return refusal("unknown");
  if (!isLive(visit)) return refusal("gone");
  if (visit.state === "onblock") return refusal("onblock");
  return previewOf(model, visits, cancelled(visit), `A cancel can't be undone: the name ${visit.name} is never free again.`);
}

/**
 * The plan as a preview leaves it. Records of lost stands have the number of the entry, 0 where that is not known.
 * @param {Visits} visits @param {Preview} preview @param {number} [entry]
 * @returns {Visits}
 */
export function planAfter(visits, { after, bumped }, entry = 0) {
  const plan = after === null ? new Map(visits) : new Map(visits).set(after.visit, after);
  for (const { visit: number, part, stand, blocker, minute, rule } of bumped) {
    const visit = plan.get(number);
    const bump = { blocker, entry, minute, rule, stand };
    plan.set(number, { ...visit, parts: visit.parts.map((it, place) => (place === part - 1 ? { ...it, stand: null, bump } : it)) });
  }
  return plan;
}

/**
 * What messages would do, each after the ones before it.
 * @param {Model} model @param {Visits} visits @param {string[]} texts
 * @returns {Preview[]}
 */
export function previewMessages(model, visits, texts) {
  let plan = visits;
  return texts.map((text) => {
    const preview = previewMessage(model, plan, text);
    plan = planAfter(plan, preview);
    return preview;
  });
}

/**
 * The days that have to be read for a preview to be sure.
 * @param {Model} model @param {Preview} preview
 * @returns {number[]}
 */
export const daysOfPreview = (model, { after }) => (after === null ? [] : daysOf(model, after));
