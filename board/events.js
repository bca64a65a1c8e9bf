// Events that somebody has to deal with: stands that were lost, closures that were broken, and alarms, which are two aircraft on block
// that exclude each other. Each stays in the banner until somebody of this browser has seen it, or it is dealt with.

import { isClosure } from "./closures.js";
import { $, el, fillKeyed, setText } from "./dom.js";
import * as picture from "./model.js";
import { keyOf, partName, standOf } from "./plan.js";
import { DAY, alarmsOf, indexOf } from "./rules.js";
import { settings } from "./settings.js";
import { sound } from "./sound.js";
import { keep, read } from "./store.js";
import { isInPlan, nowMinute, stay, utcClock, when } from "./times.js";
import { isLive, stateOf } from "./visits.js";
import { RULES, bumpWords } from "./words.js";

const KEPT = 600;
const BACK = 6 * 60;

const state = { events: [], alarms: [], alarmed: new Set(), known: null, passed: [], minute: null };
const seen = read(localStorage, "events", {});

export const isAlarmed = (key) => state.alarmed.has(key);
export const unseen = () => state.events.filter(({ id }) => seen[id] === undefined);

// Works the events out again, from the picture and the present minute.
export function findEvents() {
  if (!picture.hasPicture()) return;
  const now = nowMinute();
  const [begin, end] = isInPlan(now) ? [now - BACK, now + DAY] : [0, picture.model().days * DAY];
  const alarms = alarmsIn(begin, end);
  state.alarms = alarms.filter((alarm) => !alarm.isPast);
  state.passed = alarms.filter((alarm) => alarm.isPast);
  state.alarmed = new Set(state.alarms.flatMap(({ a, b }) => [keyOf(a.visit, a.part), keyOf(b.visit, b.part)]));
  state.events = [...state.alarms, ...lostStands(now)];
  const ids = new Set(state.events.map(({ id }) => id));
  const fresh = state.known === null ? [] : state.events.filter(({ id }) => !state.known.has(id) && seen[id] === undefined);
  state.known = ids;
  if (fresh.length > 0 && settings.sound === "on") sound(fresh.some(({ kind }) => kind === "alarm"));
}

// The alarms of a span of minutes; of a past one, one of the two has left.
export function alarmsIn(begin, end) {
  const visits = picture.visits();
  const hasLeft = ({ visit, part }) => stateOf(visits.get(visit), part, nowMinute()) === "gone";
  return alarmsOf(picture.model(), indexOf(picture.model(), visits.values()), begin, end).map((alarm) => {
    const places = [...new Set(alarm.stands.map((stand) => standOf(stand).name))].join(" and ");
    return {
      ...alarm, kind: "alarm", part: alarm.a, isPast: hasLeft(alarm.a) || hasLeft(alarm.b),
      id: `alarm ${keyOf(alarm.a.visit, alarm.a.part)} ${keyOf(alarm.b.visit, alarm.b.part)} ${places}`,
      words: () => `${when(alarm.minute)} ${partName(alarm.a)} and ${partName(alarm.b)} on ${places}: ${RULES[alarm.rule]}`,
    };
  });
}

// The parts that lost a stand and have none yet, the next one first.
function lostStands(now) {
  const found = [];
  for (const visit of picture.visits().values()) {
    if (!isLive(visit)) continue;
    visit.parts.forEach((it, place) => {
      if (it.stand !== null || it.bump === null || it.to <= now || it.from >= now + DAY) return;
      const part = { visit: visit.visit, part: place + 1 };
      const what = isClosure(visit) ? `the closure ${visit.name}` : `${partName(part)} ${stay(it)}`;
      const id = `lost ${keyOf(part.visit, part.part)} ${it.bump.entry}`;
      found.push({ kind: "lost", part, minute: it.from, id, words: () => `${what} ${bumpWords(it.bump)}` });
    });
  }
  return found.sort((one, other) => one.minute - other.minute);
}

// Keeps that a person of this browser has seen events.
export function markSeen(ids) {
  for (const id of ids) seen[id] = { by: settings.name, at: new Date().toISOString() };
  const all = Object.entries(seen).sort(([, one], [, other]) => (one.at < other.at ? 1 : -1));
  for (const [id] of all.slice(KEPT)) delete seen[id];
  keep(localStorage, "events", seen);
}

// Another page of this browser has seen events.
export function takeSeen() {
  Object.assign(seen, read(localStorage, "events", {}));
}

export function seenWords(id) {
  const by = seen[id];
  return by === undefined ? "not seen" : `seen by ${by.by} at ${utcClock(new Date(by.at))}`;
}

// The events now and the alarms that have passed, for the list.
export const allEvents = () => ({ now: state.events, passed: state.passed });

export function drawEvents() {
  const open = unseen();
  const title = picture.model() === null ? "Stand board" : `${open.length > 0 ? `(${open.length}) ` : ""}${picture.model().station} stand board`;
  if (document.title !== title) document.title = title;
  $("events").hidden = open.length === 0;
  $("events").classList.toggle("alarming", open.some(({ kind }) => kind === "alarm"));
  setText($("eventcount"), String(open.length));
  const [first] = open;
  setText($("eventline"), first === undefined ? "" : first.words());
  $("eventline").dataset.goto = first === undefined ? "" : keyOf(first.part.visit, first.part.part);
  $("sound").setAttribute("aria-pressed", String(settings.sound === "on"));
  drawAlarms();
}

function drawAlarms() {
  const lines = state.alarms.map((alarm) => {
    const words = `▲ ${alarm.words()}`;
    const goto = keyOf(alarm.a.visit, alarm.a.part);
    return { key: alarm.id, sign: words, make: () => el("button", { type: "button", class: "alarm", "data-event": alarm.id, "data-goto": goto }, words) };
  });
  const count = state.passed.length;
  if (count > 0) {
    const words = `${lines.length === 0 ? "No alarm now; " : "and "}${count} earlier`;
    const past = () => el("small", {}, el("button", { type: "button", class: "line", id: "past", "data-do": "events" }, words));
    lines.push({ key: "past", sign: words, make: past });
  }
  fillKeyed($("alarms"), lines);
}
