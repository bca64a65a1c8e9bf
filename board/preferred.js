// Where the picked part would rather stand, by the file of preferences that is served beside the page, if there is one.

import { $, button } from "./dom.js";
import * as picture from "./model.js";
import { fileBeside, pause } from "./net.js";
import { firstPicked } from "./pick.js";
import { visitOf } from "./plan.js";
import { airlineOf, costsOf, preferredOf, readPreferences } from "./preferences.js";
import { redraw } from "./redraw.js";

const AGAIN = 30000;

const state = { records: [], known: new Map() };

// Reads the file once, when it is known whether it is there.
export async function loadPreferences() {
  let text = await fileBeside("preferences.csv");
  while (text === undefined) {
    await pause(AGAIN);
    text = await fileBeside("preferences.csv");
  }
  if (text === null) return;
  const { records, fault } = readPreferences(text, picture.model());
  if (fault !== undefined) tell(`No preferences are shown: preferences.csv:${fault}`);
  else Object.assign(state, { records, known: new Map() });
  redraw();
}

function tell(words) {
  $("filenote").replaceChildren(words, button("Close", () => { $("filenote").hidden = true; }));
  $("filenote").hidden = false;
}

// Whether the first picked part would rather be on the stand of this place.
export function isPreferred(stand) {
  const part = firstPicked();
  const visit = part === null ? undefined : visitOf(part.visit);
  return visit !== undefined && preferredBy(visit).has(stand);
}

function preferredBy(visit) {
  const flight = visit.arr ?? visit.dep;
  const airline = flight === null ? "" : airlineOf(flight.flight);
  const key = `${airline} ${visit.type}`;
  if (!state.known.has(key)) state.known.set(key, preferredOf(costsOf(picture.model(), state.records, airline, visit.type)));
  return state.known.get(key);
}
