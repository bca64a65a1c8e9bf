// The airport and the picture of its plan: what was read of the server at one version, and nothing that a draft adds.

import { modelOf } from "./rules.js";

const state = {
  model: null,
  version: 0, // the version of the picture; 0 before there is one
  isThere: false,
  visits: new Map(), // the visits of the days that the picture covers, by number
  covers: new Set(), // these days
  alone: new Map(), // visits that were read one by one, since no day that is covered has them
};

export const model = () => state.model;
export const version = () => state.version;
export const hasPicture = () => state.isThere;
export const visits = () => state.visits;
export const covers = () => state.covers;

export function setAirport(airport) {
  state.model = modelOf(airport);
}

// Takes the pages of days, all of one version, as the picture.
export function setPicture(pages, number) {
  state.visits = new Map();
  state.covers = new Set(pages.keys());
  for (const { visits: all } of pages.values()) for (const visit of all) state.visits.set(visit.visit, visit);
  for (const [name, visit] of state.alone) {
    if (visit.version !== number || state.visits.has(name)) state.alone.delete(name);
    else state.visits.set(name, visit);
  }
  state.version = number;
  state.isThere = true;
}

// Takes a visit that was read by itself.
export function addVisit(visit) {
  state.alone.set(visit.visit, visit);
  if (!state.visits.has(visit.visit)) state.visits.set(visit.visit, visit);
}

// Forgets the picture: a person goes on from an older plan.
export function forgetPicture() {
  Object.assign(state, { version: 0, isThere: false, visits: new Map(), covers: new Set(), alone: new Map() });
}
