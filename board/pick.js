// Which parts are picked, where the first of them fits, and where the keyboard is in the chart.

import * as picture from "./model.js";
import { index, keyOf, partOf, partOfKey, visitOf } from "./plan.js";
import { redraw } from "./redraw.js";
import { fitsOf } from "./rules.js";

const state = {
  keys: [], // the picked parts, the first one first
  fits: null, // what keeps the first off each stand
  fitsOver: null, // the slots that this was worked out over, and the part
  isOnlyFits: false,
  stand: null, // the row at which the keyboard is
  part: null, // and the part in it
};

export const isPicking = () => state.keys.length > 0;
export const isPicked = (key) => state.keys.includes(key);
export const pickedParts = () => state.keys.map(partOfKey);
export const firstPicked = () => (state.keys.length === 0 ? null : partOfKey(state.keys[0]));
export const isOnlyFits = () => state.isOnlyFits && state.keys.length > 0;

// What keeps the first picked part off each stand, by the stand's place; null where it fits.
export function fits() {
  const part = firstPicked();
  if (part === null || partOf(part) === undefined) return null;
  if (state.fitsOver?.index !== index() || state.fitsOver.key !== state.keys[0]) {
    state.fits = fitsOf(picture.model(), index(), visitOf(part.visit), part.part);
    state.fitsOver = { index: index(), key: state.keys[0] };
  }
  return state.fits;
}

// Of one stand: undefined while nothing is picked.
export const offOf = (stand) => fits()?.[stand];

export function pick({ visit, part }) {
  state.keys = [keyOf(visit, part)];
  redraw();
}

// Adds a part to those that are picked, or takes it away.
export function pickMore({ visit, part }) {
  const key = keyOf(visit, part);
  state.keys = isPicked(key) ? state.keys.filter((it) => it !== key) : [...state.keys, key];
  redraw();
}

export function pickAll(keys) {
  state.keys = [...new Set([...state.keys, ...keys])];
  redraw();
}

export function drop() {
  if (state.keys.length === 0) return;
  Object.assign(state, { keys: [], fits: null, fitsOver: null, isOnlyFits: false });
  redraw();
}

// Lets go of parts that are no longer there.
export function dropVanished() {
  state.keys = state.keys.filter((key) => partOf(partOfKey(key)) !== undefined);
}

export function showOnlyFits(is) {
  state.isOnlyFits = is;
  redraw();
}

export const cursor = () => ({ stand: state.stand, part: state.part });

export function setCursor(stand, part) {
  Object.assign(state, { stand, part });
  redraw();
}
