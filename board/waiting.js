// The lists of parts without a stand: those that wait, by time or by priority, searched and counted down, and those whose time has passed.

import * as axis from "./axis.js";
import { $, el, fillKeyed, setText } from "./dom.js";
import { isMarked } from "./history.js";
import { isPicked } from "./pick.js";
import { isDrafted, keyOf, typeOf, visits } from "./plan.js";
import { DAY, letterOf } from "./rules.js";
import { redraw } from "./redraw.js";
import { rove, setTabStop } from "./roving.js";
import { changeSettings, settings } from "./settings.js";
import { dayOf, nowMinute, stay } from "./times.js";
import { flightOf, waitingOf } from "./visits.js";
import { bumpWords } from "./words.js";
import { isClosure } from "./closures.js";

// Within so many minutes a part is marked.
const NEAR = 30;

const state = { search: "" };

// The parts that wait on the days in sight, in the order of the list.
function waitingParts() {
  const days = axis.daysInSight();
  if (days.length === 0) return [];
  const found = waitingOf(visits().values(), (days[0] - 1) * DAY, days.at(-1) * DAY).filter(({ visit }) => !isClosure(visit));
  return settings.waitsort === "class" ? found : found.sort((one, other) => one.it.from - other.it.from || one.visit.visit - other.visit.visit);
}

function matches({ visit }) {
  const text = state.search;
  return text === "" || [visit.arr?.flight, visit.dep?.flight, visit.name, visit.type].some((it) => it?.includes(text));
}

export function drawWaiting() {
  const now = nowMinute();
  const all = waitingParts();
  const still = all.filter(({ it }) => it.to > now);
  const passed = all.filter(({ it }) => it.to <= now);
  const days = axis.daysInSight();
  setText($("waitcount"), String(still.length));
  setText($("waitdays"), days.length === 0 ? "" : days.map((day) => dayLabel(day)).join(", "));
  setText($("passedcount"), String(passed.length));
  $("passed").hidden = passed.length === 0;
  const shown = still.filter(matches);
  $("waitnone").hidden = shown.length > 0 || state.search === "";
  fillKeyed($("waitlist"), shown.map((it) => waitItem(it, now)));
  fillKeyed($("passedlist"), passed.map((it) => waitItem(it, now)));
  setTabStop($("waitlist"));
  setTabStop($("passedlist"));
}

const dayLabel = (day) => (day === dayOf(nowMinute()) ? "today" : `day ${day}`);

function waitItem({ visit, part, it }, now) {
  const key = keyOf(visit.visit, part);
  const left = it.from - now;
  const isLate = left <= 0 && it.to > now;
  const isNear = left > 0 && left <= NEAR;
  const classes = ["wait", isLate && "late", isNear && "near", isPicked(key) && "picked", isMarked(key) && "marked", isDrafted(visit, part) && "drafted"]
    .filter(Boolean).join(" ");
  const time = stay(it);
  const count = it.to <= now ? "" : isLate ? "now" : left < 600 ? `${left}′` : `${Math.round(left / 60)} h`;
  const bump = it.bump === null ? "" : bumpWords(it.bump);
  return {
    key, sign: `${classes}|${time}|${count}|${bump}`,
    make: () => el("li", { role: "presentation" }, el("button",
      { type: "button", class: classes, "data-key": key, role: "option", tabindex: "-1", "aria-selected": String(isPicked(key)) },
      el("b", {}, flightOf(visit)), el("span", {}, visit.type), el("i", {}, letterOf(typeOf(visit).span)), el("time", {}, time),
      el("small", { class: "left" }, count), el("small", { class: "class", title: "priority: 0 keeps a stand before 9" }, String(visit.class)),
      bump === "" ? null : el("em", {}, bump))),
  };
}

export function listenToWaiting() {
  $("waitsort").value = settings.waitsort ?? "time";
  $("waitsort").addEventListener("change", () => {
    changeSettings({ waitsort: $("waitsort").value });
    redraw();
  });
  $("waitfind").addEventListener("input", () => {
    state.search = $("waitfind").value.trim().toUpperCase();
    redraw();
  });
  for (const list of [$("waitlist"), $("passedlist")]) rove(list);
}
