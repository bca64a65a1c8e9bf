// Finding a flight, a stand or a type: what is typed is looked for in the plan that is read, and Enter goes there.

import * as axis from "./axis.js";
import { $, el, fillKeyed, setText } from "./dom.js";
import * as picture from "./model.js";
import { goTo, goToStand } from "./refusal.js";
import { visits } from "./plan.js";
import { found } from "./search.js";
import { nowMinute } from "./times.js";

const state = { results: [], place: 0 };

export function openFind() {
  $("find").focus();
  $("find").select();
}

export function listenToFind() {
  const input = $("find");
  input.addEventListener("input", look);
  input.addEventListener("focus", look);
  input.addEventListener("keydown", onKey);
  input.addEventListener("blur", () => setTimeout(hide, 200));
  $("found").addEventListener("click", (event) => {
    const place = event.target.closest("[data-place]")?.dataset.place;
    if (place !== undefined) goto(Number(place));
  });
}

function look() {
  const text = $("find").value.trim();
  state.results = text === "" || picture.model() === null ? [] : found(picture.model(), visits(), text, nowMinute());
  state.place = 0;
  draw(text);
}

function draw(text) {
  $("found").hidden = text === "";
  $("find").setAttribute("aria-expanded", String(text !== ""));
  const days = [...picture.covers()].sort((one, other) => one - other).join(", ");
  setText($("nothing"), state.results.length === 0 ? `Nothing found on the days that are read (${days}).` : "");
  fillKeyed($("foundlist"), state.results.map((it, place) => ({
    key: String(place), sign: `${it.kind}|${it.words}|${place === state.place}`,
    make: () => el("li", { role: "option", "data-place": place, "aria-selected": String(place === state.place), id: `found${place}` },
      el("b", {}, it.kind), el("span", {}, it.words)),
  })));
}

function hide() {
  $("found").hidden = true;
  $("find").setAttribute("aria-expanded", "false");
}

function onKey(event) {
  const by = { ArrowDown: 1, ArrowUp: -1 }[event.key];
  if (by !== undefined) {
    state.place = Math.min(Math.max(state.place + by, 0), Math.max(0, state.results.length - 1));
    draw($("find").value.trim());
  } else if (event.key === "Enter") goto(state.place);
  else if (event.key === "Escape") {
    hide();
    $("chart").focus();
  } else return;
  event.preventDefault();
  event.stopPropagation();
}

function goto(place) {
  const it = state.results[place];
  if (it === undefined) return;
  hide();
  if (it.kind === "flight") goTo({ visit: it.visit, part: it.part });
  else if (it.kind === "stand") goToStand(it.stand);
  else showType(it.type);
}

// The flights of a type: what is found is listed by it.
function showType(type) {
  $("find").value = type;
  const first = [...visits().values()].filter((visit) => visit.type === type && visit.parts[0].to > axis.start())
    .sort((one, other) => one.parts[0].from - other.parts[0].from)[0];
  if (first !== undefined) goTo({ visit: first.visit, part: 1 });
}
