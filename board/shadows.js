// What shuts a stand out while nobody is on it: its whole or its halves are in use, a wide wing reaches over from a neighbour, or a pair is
// restricted.

import { ruleBetween, spanAt, unfitOf } from "./rules.js";

/**
 * @typedef {import("./rules.js").Model} Model
 * @typedef {import("./rules.js").Slot} Slot
 * @typedef {{from: number, end: number, visit: number, part: number, on: number, rule: import("./rules.js").Rule, whole: boolean,
 *   letter: string}} Shadow  from the aircraft of this part, which is on the stand of place `on`: it shuts out aircraft from this code letter on, and
 *   with `whole` all that the stand takes
 */

// The types of aircraft that a stand takes, from the narrowest on.
const typesOf = (model, stand) => model.types.filter((type) => unfitOf(model, stand, type) === null).sort((one, other) => one.span - other.span);

/**
 * The shadows on a stand in these minutes, by their beginnings. A shadow lasts as long as the same types are shut out: folded wing tips shut out
 * fewer.
 * @param {Model} model @param {import("./rules.js").Index} index @param {number} stand @param {number} begin @param {number} end
 * @returns {Shadow[]}
 */
export function shadowsOf(model, index, stand, begin, end) {
  const types = typesOf(model, stand);
  if (types.length === 0) return [];
  const shadows = [];
  for (const { stand: on } of model.near[stand]) {
    if (on === stand) continue;
    for (const slot of index[on]) {
      if (slot.from < end && slot.end > begin) shadows.push(...shadowsBy(model, stand, types, slot));
    }
  }
  return shadows.filter((it) => it.from < end && it.end > begin).sort((one, other) => one.from - other.from);
}

// The shadows of one slot: one for each span that its aircraft has in turn.
function shadowsBy(model, stand, types, slot) {
  const { type, from, to, end } = slot;
  const folds = type.parked !== type.span && to - from > 2 * type.fold;
  const times = folds ? [from, from + type.fold, to - type.fold, end] : [from, end];
  const shadows = [];
  for (let place = 0; place + 1 < times.length; place++) {
    if (times[place] >= times[place + 1]) continue;
    const made = shadowAt(model, stand, types, slot, times[place], times[place + 1]);
    if (made !== null) shadows.push(made);
  }
  return shadows;
}

function shadowAt(model, stand, types, slot, from, end) {
  const span = spanAt(slot, from);
  const rules = types.map((type) => ruleBetween(model, stand, type.parked, slot.stand, span));
  const first = rules.findIndex((rule) => rule !== null);
  if (first < 0) return null;
  const { visit, part, stand: on } = slot;
  return { from, end, visit, part, on, rule: rules[first], whole: rules.every((rule) => rule !== null), letter: types[first].letter };
}
