// The card of a part: all that is known of its visit, the clients of the entries that edited it last and that took its stand, and the changes
// that this page saw. It comes with the mouse and with a key.

import { HOW, timesFor } from "./bars.js";
import { isClosure } from "./closures.js";
import { delayWords } from "./delays.js";
import { $, el, placeNear } from "./dom.js";
import { changesOfVisit, wordsOf } from "./history.js";
import { ask } from "./net.js";
import { barOf } from "./chart.js";
import { howOf, keyOf, typeOf, visitOf } from "./plan.js";
import { letterOf } from "./rules.js";
import { stay, when } from "./times.js";
import { bumpWords, metres } from "./words.js";

const REST = 350;
const state = { shown: null, timer: undefined, entries: new Map() };

export const shownCard = () => state.shown;

// Shows the card of a part after the mouse has rested on its bar.
export function restOn(part) {
  clearTimeout(state.timer);
  if (part === null) return hideCard();
  state.timer = setTimeout(() => showCard(part), REST);
  return undefined;
}

export function hideCard() {
  clearTimeout(state.timer);
  if (state.shown === null) return;
  state.shown = null;
  $("card").hidden = true;
}

export function showCard(part) {
  if (visitOf(part.visit)?.parts[part.part - 1] === undefined) return hideCard();
  clearTimeout(state.timer);
  state.shown = part;
  drawCard();
  const anchor = barOf(part) ?? document.querySelector(`.wait[data-key="${keyOf(part.visit, part.part)}"]`);
  if (anchor !== null) placeNear($("card"), anchor.getBoundingClientRect());
  return undefined;
}

// Draws the card that is shown again.
export function drawCard() {
  if (state.shown === null) return;
  const visit = visitOf(state.shown.visit);
  if (visit === undefined) return hideCard();
  const lines = [...headOf(visit), ...timesOfVisit(visit), ...partsOf(visit), ...entriesOf(visit), ...changesOf(visit)];
  $("card").replaceChildren(...lines);
  $("card").hidden = false;
  return undefined;
}

function headOf(visit) {
  const type = typeOf(visit);
  const flights = [visit.arr, visit.dep].map((it) => it?.flight ?? "–").join(" → ");
  const folds = type.fold > 0 ? `, folded ${metres(type.parked)}` : "";
  return [el("h3", {}, isClosure(visit) ? `Closure ${visit.name}` : flights, el("small", {}, visit.name)),
    el("p", {}, `${visit.type}, letter ${letterOf(type.span)}, ${metres(type.span)}${folds} · priority ${visit.class} · ${HOW[visit.state] ?? visit.state}`)];
}

function timesOfVisit(visit) {
  const { on, off, shorter, late, overdue } = timesFor(visit);
  const row = (name, { scheduled, time, actual, delay }) => el("tr", {}, el("th", {}, name), el("td", {}, when(scheduled)),
    el("td", {}, actual ? "" : when(time)), el("td", {}, actual ? when(time) : ""), el("td", {}, delayWords(delay)));
  const head = el("tr", {}, ...["", "scheduled", "expected", "actual", "min"].map((word) => el("th", {}, word)));
  return [el("table", {}, head, row("on block", on), row("off block", off)),
    ...(shorter > 0 ? [el("p", { class: "warn" }, `Its stay is ${shorter} min shorter than scheduled.`)] : []),
    ...(late === null ? [] : [el("p", { class: "warn" }, `Late, not here yet: ${late.minutes} min.`)]),
    ...(overdue === null ? [] : [el("p", { class: "warn" }, `Still here ${overdue.minutes} min after its expected end.`)])];
}

const partsOf = (visit) => visit.parts.map((it, place) => {
  const number = visit.parts.length > 1 ? `Part ${place + 1}: ` : "";
  const bump = it.bump === null ? "" : ` · ${bumpWords(it.bump)}`;
  return el("p", { class: bump === "" ? "" : "bad" }, `${number}${it.stand ?? "no stand"} ${stay(it)} · ${HOW[howOf(visit, place + 1)]}${bump}`);
});

// Who edited the visit last, and whose entry took its stand: asked for when the card is shown.
function entriesOf(visit) {
  const wanted = [[visit.edited, "Last edited by"], ...visit.parts.filter((it) => it.bump !== null).map((it) => [it.bump.entry, "Its stand was taken by"])];
  return wanted.filter(([entry]) => entry > 0).map(([entry, words]) => el("p", { class: "dim" }, `${words} ${entryWords(entry)}`));
}

function entryWords(number) {
  const entry = state.entries.get(number);
  if (entry === undefined) {
    state.entries.set(number, null);
    ask("GET", `entries/${number}`).then((outcome) => {
      if (outcome.is === "ok") state.entries.set(number, outcome.body);
      else state.entries.delete(number);
      drawCard();
    });
  }
  return entry ? `a ${entry.kind} of ${entry.desk === null ? "a client that is not named" : `client ${entry.desk}`} (version ${number})` : `version ${number}`;
}

const changesOf = (visit) => changesOfVisit(visit.visit).slice(0, 6).map((change) => el("p", { class: "dim" }, `${change.version}: ${wordsOf(change)}`));
