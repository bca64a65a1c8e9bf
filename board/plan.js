// The plan as this client would leave it: the picture with the draft over it, and what follows from that for stands.

import * as picture from "./model.js";
import { indexOf } from "./rules.js";
import { nowMinute } from "./times.js";
import { flightOf, stateOf, visitsAfter } from "./visits.js";

const state = { visits: new Map(), index: [], places: null };

export const visits = () => state.visits;
export const index = () => state.index;

// Makes the plan again, from the picture and these edits.
export function remake(edits) {
  const seen = picture.visits();
  const { changed } = visitsAfter(picture.model(), seen, edits);
  state.visits = changed.size === 0 ? seen : new Map([...seen].map(([number, visit]) => [number, changed.get(number) ?? visit]));
  state.index = indexOf(picture.model(), state.visits.values());
}

export const keyOf = (visit, part) => `${visit}.${part}`;
export const partOfKey = (key) => {
  const [visit, part] = key.split(".").map(Number);
  return { visit, part };
};

export const visitOf = (number) => state.visits.get(number) ?? picture.visits().get(number);
export const partOf = ({ visit, part }) => visitOf(visit)?.parts[part - 1];
export const typeOf = (visit) => picture.model().typeOf.get(visit.type);
export const standOf = (place) => picture.model().stands[place];
export const placeOf = (name) => picture.model().standOf.get(name);
export const howOf = (visit, part) => stateOf(visit, part, nowMinute());

// Whether the draft leaves a part in another way than the picture has it.
export function isDrafted(visit, part) {
  const seen = picture.visits().get(visit.visit);
  if (seen === visit) return false;
  const old = seen?.parts[part - 1];
  const it = visit.parts[part - 1];
  return old === undefined || it === undefined || old.stand !== it.stand || old.to !== it.to || old.from !== it.from;
}

// A part as a controller calls it: its flight, its type and, of several, which part it is.
export function partName({ visit, part }) {
  const it = visitOf(visit);
  if (it === undefined) return `part ${part} of visit ${visit}`;
  return `${flightOf(it)} (${it.type})${it.parts.length > 1 ? ` part ${part}` : ""}`;
}

export const visitName = (number) => (visitOf(number) === undefined ? `Visit ${number}` : flightOf(visitOf(number)));
