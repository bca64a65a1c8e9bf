// The time axis: which minutes are in sight, and where a minute is. It is one axis over all days of the plan and a day at each end, and it is
// scrolled by the browser; while it follows, the present minute stays at a third of the width.

import { $ } from "./dom.js";
import { DAY } from "./rules.js";
import { redraw } from "./redraw.js";
import { address, settings } from "./settings.js";
import { dayOf, isInPlan, nowMinute, setSight } from "./times.js";

export const HOURS = [2, 3, 4, 6, 8, 12, 16, 24, 36];
const [FEWEST, MOST] = [HOURS[0], HOURS.at(-1)];
const LOW = -DAY;
const LABEL = 6.4;
// A scroll that is this near to where the page put it is its own.
const OWN = 2;

const state = {
  days: 1, start: 0, hours: 16, label: 100, pm: 1,
  isFollowing: true, leftAt: 0, applied: null, printed: null, font: 16,
};

export const start = () => state.start;
export const hours = () => state.hours;
export const end = () => state.start + state.hours * 60;
export const pixels = () => state.pm;
export const fontSize = () => state.font;
export const isFollowing = () => state.isFollowing;
// Where a track begins: on paper with the minutes in sight, on the screen a day before the plan.
const origin = () => (state.printed === null ? LOW : state.start);
// Where a minute is in a track, in pixels.
export const xOf = (minute) => (minute - origin()) * state.pm;

const high = () => state.days * DAY + DAY;
const within = (minute) => Math.min(Math.max(minute, LOW), high() - state.hours * 60);

// The days of the plan that are in sight.
export function daysInSight() {
  const first = Math.max(1, dayOf(Math.floor(state.start)));
  const last = Math.min(state.days, dayOf(Math.ceil(end()) - 1));
  return Array.from({ length: Math.max(0, last - first + 1) }, (_, place) => first + place);
}

// As many hours as leave room for the names of short stays.
function firstHours() {
  const asked = Number(address.hours);
  if (asked >= FEWEST && asked <= MOST) return Math.round(asked);
  return innerWidth >= 2500 ? 24 : innerWidth >= 1700 ? 16 : innerWidth >= 1000 ? 12 : innerWidth >= 600 ? 6 : 3;
}

// Opens the axis for a plan of so many days: at the day that the address names, or at the present minute.
export function openAxis(days) {
  Object.assign(state, { days, hours: firstHours() });
  const day = Math.min(Math.max(Number(address.day) || 1, 1), days);
  if (address.day !== null) look((day - 1) * DAY);
  else if (isInPlan(nowMinute())) followNow();
  else look(nowMinute() < 0 ? 0 : (days - 1) * DAY);
}

// Shows the minutes from this one on, and follows no more.
export function look(minute) {
  state.isFollowing = false;
  state.leftAt = performance.now();
  move(minute);
}

function move(minute) {
  state.start = within(minute);
  setSight(state.start, end());
  redraw();
}

export function followNow() {
  if (!isInPlan(nowMinute())) return false;
  state.isFollowing = true;
  move(nowMinute() - (state.hours * 60) / 3);
  return true;
}

// Goes on or back by so many minutes, from where the axis is to be, however slow the server is.
export const shift = (minutes) => look(state.start + minutes);

// Goes to the beginning of a day, so many days on or back.
export function shiftDays(by) {
  const at = state.start / DAY;
  look((by > 0 ? Math.floor(at) + by : Math.ceil(at) + by) * DAY);
}

// Changes the hours in sight; the minute at this share of the width stays where it is.
export function setHours(wanted, share = 1 / 3) {
  const kept = state.start + state.hours * 60 * share;
  state.hours = Math.min(Math.max(Math.round(wanted), FEWEST), MOST);
  if (state.isFollowing) followNow();
  else look(kept - state.hours * 60 * share);
}

export const zoom = (by) => setHours(by < 0 ? HOURS.findLast((it) => it < state.hours) ?? FEWEST : HOURS.find((it) => it > state.hours) ?? MOST);

// Brings minutes into sight where they are not.
export function reveal(from, to) {
  const room = state.hours * 60;
  if (from >= state.start && (to <= end() || from < state.start + room / 2)) return;
  look(from - room / 4);
}

// What goes on by itself: the present minute stays at its place, and after the time of the settings a person who scrolled away is brought
// back, unless they are at something.
export function tickAxis(isBusy) {
  if (state.isFollowing) {
    const wanted = within(nowMinute() - (state.hours * 60) / 3);
    if (Math.abs(wanted - state.start) * state.pm >= 1) followNow();
    return;
  }
  if (isBusy) state.leftAt = performance.now();
  const back = address.isWall ? 1 : Number(settings.back);
  if (back > 0 && performance.now() - state.leftAt > back * 60000) followNow();
}

// Measures the chart, and puts its scroll where the axis says.
export function measure() {
  const chart = $("chart");
  state.font = parseFloat(getComputedStyle(document.documentElement).fontSize);
  const label = Math.round(LABEL * state.font);
  const width = Math.max(60, (state.printed ?? chart.clientWidth) - label);
  const pm = width / (state.hours * 60);
  if (pm !== state.pm || label !== state.label) layOut(label, pm);
  if (state.printed !== null) return;
  const left = Math.round(xOf(state.start));
  if (Math.abs(chart.scrollLeft - left) > 0.5 && state.applied !== left) chart.scrollLeft = left;
  state.applied = left;
  Object.assign(chart.dataset, { start: String(Math.round(state.start)), hours: String(state.hours), pm: String(pm), follow: String(state.isFollowing) });
}

function layOut(label, pm) {
  Object.assign(state, { label, pm });
  const root = document.documentElement.style;
  const minutes = state.printed === null ? high() - LOW : state.hours * 60;
  const hour = Math.ceil(origin() / 60) * 60;
  root.setProperty("--label", `${label}px`);
  root.setProperty("--track", `${minutes * pm}px`);
  root.setProperty("--hourpx", `${pm * 60}px`);
  root.setProperty("--firsthour", `${xOf(hour)}px`);
}

// Takes a scroll of the chart: one that the page did not make is a person's. Gives whether the minutes in sight changed.
export function onScrolled() {
  const { scrollLeft } = $("chart");
  if (state.applied === null || Math.abs(scrollLeft - state.applied) < OWN) return false;
  state.applied = Math.round(scrollLeft);
  look(LOW + scrollLeft / state.pm);
  return true;
}

// The minute at a place of the window.
export const minuteAt = (x) => state.start + (x - $("chart").getBoundingClientRect().left - state.label) / state.pm;

// Lays the axis out for paper of this width, or for the screen again where it is null.
export function printAxis(width) {
  Object.assign(state, { printed: width, pm: 0, applied: null });
}
