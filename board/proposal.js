// A first-fit draft for the parts that wait, as the server's own command proposes one (docs/reference/cli.md): by rank, each on the first stand of the
// airport file that it fits. It does not look ahead. A closure is not put on another stand.

import { isClosure } from "./closures.js";
import { firstClash, indexOf, slotOn, unfitOf } from "./rules.js";
import { MOST_EDITS } from "./draft.js";
import { stateOf, visitsAfter, waitingOf } from "./visits.js";

/**
 * @typedef {import("./rules.js").Model} Model
 * @typedef {import("./rules.js").PartId} PartId
 * @typedef {import("./rules.js").Visit} Visit
 * @typedef {import("./visits.js").Edit} Edit
 * @typedef {{by: import("./rules.js").Unfit} | {clash: import("./rules.js").Clash}} Why
 * @typedef {PartId & {why: Why[]}} Left  why no stand takes a part, by the stand's place
 */

// For so many minutes a stand where an aircraft is overdue is not proposed.
const STAYS = 30;

/**
 * @param {Model} model @param {Map<number, Visit>} visits
 * @param {{begin: number, end: number, edits?: Edit[], most?: number, now?: number | null}} window  the minutes of the parts; the edits that the
 *   draft has already; how many it may have in all; and the present minute, where stands of overdue aircraft are to be left out
 * @returns {{edits: Edit[], left: Left[], over: PartId[]}}  the new edits, the parts that no stand takes, and those beyond the most edits
 */
export function proposalOf(model, visits, { begin, end, edits = [], most = MOST_EDITS, now = null }) {
  const { changed } = visitsAfter(model, visits, edits);
  const plan = new Map([...visits, ...changed]);
  const index = indexOf(model, plan.values());
  if (now !== null) stayLonger(index, plan, now);
  const proposal = { edits: [], left: [], over: [] };
  for (const { visit, part } of waitingOf(plan.values(), begin, end)) {
    if (isClosure(visit)) continue;
    const id = { visit: visit.visit, part };
    if (edits.length + proposal.edits.length >= most) {
      proposal.over.push(id);
      continue;
    }
    const { stand, why } = firstFit(model, index, visit, part);
    if (stand === null) proposal.left.push({ ...id, why });
    else {
      insert(index[stand], slotOn(model, visit, part, stand));
      proposal.edits.push({ put: { ...id, stand: model.stands[stand].name } });
    }
  }
  return proposal;
}

function firstFit(model, index, visit, part) {
  const type = model.typeOf.get(visit.type);
  const why = [];
  for (const stand of model.stands.keys()) {
    const by = unfitOf(model, stand, type);
    const clash = by === null ? firstClash(model, index, [slotOn(model, visit, part, stand)]) : null;
    if (by === null && clash === null) return { stand, why };
    why.push(by === null ? { clash } : { by });
  }
  return { stand: null, why };
}

function insert(slots, slot) {
  const place = slots.findIndex(({ from }) => from > slot.from);
  slots.splice(place < 0 ? slots.length : place, 0, slot);
}

function stayLonger(index, visits, now) {
  for (const slots of index) {
    slots.forEach((slot, place) => {
      if (stateOf(visits.get(slot.visit), slot.part, now) === "overdue") slots[place] = { ...slot, to: now, end: Math.max(slot.end, now + STAYS) };
    });
  }
}

/**
 * Why a part is left, in a line: of the stands that its type fits, the one that is free for longest.
 * @param {Model} model @param {Left} left @param {{name: (part: PartId) => string, when: (minute: number) => string}} say
 */
export function leftWords(model, { visit, why }, { name, when }) {
  const letters = why.filter(({ by }) => by === "letter").length;
  const objects = why.filter(({ by }) => by !== undefined && by !== "letter").length;
  const taken = why.flatMap(({ clash }, stand) => (clash === undefined ? [] : [{ stand, ...clash }])).sort((one, other) => other.minute - one.minute);
  const words = [];
  if (taken.length > 0) {
    const [{ stand, a, b, minute }] = taken;
    words.push(`${taken.length} taken, ${model.stands[stand].name} by ${name(a.visit === visit ? b : a)} from ${when(minute)}`);
  }
  if (letters > 0) words.push(`${letters} of too small a letter`);
  if (objects > 0) words.push(`${objects} with an object too near`);
  return words.join("; ");
}
