// Following the plan: its version is asked for once a second, and the days that are needed are read where it has risen. A turn that fails says
// so and is followed by the next, for ever.

import * as axis from "./axis.js";
import { changesOf } from "./changes.js";
import * as drafting from "./drafting.js";
import { daysOf } from "./visits.js";
import { forgetSeen, ask, pause, seen } from "./net.js";
import { faultHappened, hasTrouble, turnFailed, turnWentWell } from "./health.js";
import { addChanges } from "./history.js";
import { needsOf } from "./draft.js";
import { newDesk } from "./desk.js";
import * as picture from "./model.js";
import { dropVanished, pickedParts } from "./pick.js";
import { visitOf } from "./plan.js";
import { drawn } from "./redraw.js";
import { settings } from "./settings.js";
import { dayOf, nowMinute, setPlan } from "./times.js";

const POLL = 1000;
const HIDDEN_POLL = 4000;
// Around the present minute the plan is always read: so far back for aircraft that should have left, and so far on for stands that are lost.
const BACK = 6 * 60;
const AHEAD = 12 * 60;
// A turn that takes longer than this has come to nothing.
const LONGEST_TURN = 90000;
const MOST_TURNS = 40;
const MOST_VANISHED = 8;

const state = { run: 0, began: 0, pages: new Map(), airport: null, listeners: [], failed: 0, looking: null, next: null };

// Calls these whenever a picture came.
export const onPicture = (listener) => state.listeners.push(listener);

// Starts to follow, and again after an error that nobody foresaw: the loop before then ends by itself.
export function startFollowing() {
  state.run += 1;
  state.began = performance.now();
  loop(state.run);
}

// Starts again where a turn has not come to its end.
export function watchOver() {
  if (performance.now() - state.began > LONGEST_TURN) startFollowing();
}

async function loop(run) {
  while (run === state.run) {
    state.began = performance.now();
    await turn();
    await pause(document.hidden ? HIDDEN_POLL : state.failed > 3 ? 2 * POLL : POLL);
  }
}

async function turn() {
  try {
    const is = await look();
    if (!is) return;
    await drawn();
    turnWentWell();
  } catch (fault) {
    faultHappened(fault);
    state.pages = new Map();
  }
}

// Brings the picture up to date; gives whether that went well. Those who ask while it goes on share one further turn after it.
export function look() {
  if (state.looking === null) return begin();
  state.next ??= state.looking.catch(() => false).then(() => {
    state.next = null;
    return begin();
  });
  return state.next;
}

function begin() {
  state.looking = lookOnce().finally(() => { state.looking = null; });
  return state.looking;
}

async function lookOnce() {
  if (picture.model() === null || hasTrouble()) {
    if (!(await readAirport())) return false;
  }
  if (picture.hasPicture() && isComplete()) {
    const reply = await asked("version");
    if (reply === null) return false;
    if (reply.version <= picture.version()) return true;
  }
  return readPicture();
}

// What a read gives, or null where it gives nothing.
async function asked(target) {
  const outcome = await ask("GET", target);
  if (outcome.is === "ok") {
    state.failed = 0;
    return outcome.body;
  }
  state.failed += 1;
  const isAhead = outcome.is === "refused" && outcome.body.error === "ahead";
  turnFailed(isAhead ? { cause: "ahead", version: outcome.body.version, words: "" }
    : outcome.is === "trouble" ? outcome : { cause: "status", words: `The server refuses to answer: ${outcome.body.error}.` }, goOnFromOlder);
  return null;
}

// Reads the airport at the start, and after each trouble: another one may be served by then, and the page begins again for it.
async function readAirport() {
  const airport = await asked("airport");
  if (airport === null) return false;
  const { version, ...rest } = airport;
  const text = JSON.stringify(rest);
  if (state.airport === text) return true;
  if (state.airport !== null) {
    location.reload();
    return false;
  }
  state.airport = text;
  picture.setAirport(airport);
  setPlan(airport);
  axis.openAxis(airport.days);
  return true;
}

// The days that have to be read: those in sight, those about the present minute, those of the picked parts and those of the draft.
function neededDays() {
  const now = nowMinute();
  const days = [...axis.daysInSight(), dayOf(now), dayOf(now - BACK), dayOf(now + AHEAD), ...drafting.draftDays()];
  for (const { visit } of pickedParts()) if (visitOf(visit) !== undefined) days.push(...daysOf(picture.model(), visitOf(visit)));
  for (const edit of drafting.edits()) {
    const visit = visitOf(Object.values(edit)[0].visit);
    if (visit !== undefined) days.push(...daysOf(picture.model(), visit));
  }
  return [...new Set(days)].filter((day) => day >= 1 && day <= picture.model().days);
}

// Whether all days that are needed are read.
export const isComplete = () => neededDays().every((day) => picture.covers().has(day));

// Reads the days that are needed until they all have one version. Where days came into sight, they are shown before the others are there.
async function readPicture() {
  const pages = new Map([...state.pages].filter(([, page]) => page.version === picture.version()));
  for (let turns = 0; turns < MOST_TURNS; turns++) {
    const newest = Math.max(seen(), ...[...pages.values()].map((page) => page.version));
    const late = neededDays().find((day) => (pages.get(day)?.version ?? -1) < newest);
    if (late === undefined) break;
    const page = await asked(`day/${late}`);
    if (page === null) return false;
    pages.set(late, page);
    if (!isSightRead() && axis.daysInSight().every((day) => pages.get(day)?.version === seen())) takePicture(pages);
  }
  takePicture(pages, await readVanished(pages));
  await readAlone();
  return true;
}

// The visits that the newer pages no longer list, read by themselves: they were cancelled, or moved to another day.
async function readVanished(pages) {
  const found = new Map();
  if (!picture.hasPicture()) return found;
  const visits = new Map([...pages.values()].flatMap((page) => page.visits).map((visit) => [visit.visit, visit]));
  const before = { visits: picture.visits(), covers: picture.covers(), version: picture.version() };
  const after = { visits, covers: new Set(pages.keys()), version: seen() };
  for (const { visit, kind } of changesOf(picture.model(), before, after)) {
    if (kind !== "vanished" || found.size === MOST_VANISHED) continue;
    const outcome = await ask("GET", `visits/${visit}`);
    if (outcome.is === "ok") found.set(visit, outcome.body);
  }
  return found;
}

const isSightRead = () => picture.hasPicture() && axis.daysInSight().every((day) => picture.covers().has(day));

// Reads the visits of the draft that none of its days has any more: they were cancelled, or moved.
async function readAlone() {
  const { visits } = needsOf(picture.model(), picture.visits(), picture.covers(), drafting.keptEdits());
  for (const number of visits) {
    const visit = await asked(`visits/${number}`);
    if (visit !== null) picture.addVisit(visit);
  }
  if (visits.length > 0) drafting.refresh();
}

function takePicture(pages, known = new Map()) {
  const version = Math.max(0, ...[...pages.values()].map((page) => page.version));
  if (version < picture.version()) return;
  const needed = new Set(neededDays());
  state.pages = new Map([...pages].filter(([day, page]) => page.version === version && needed.has(day)));
  const before = { visits: picture.visits(), covers: picture.covers(), version: picture.version() };
  const isFirst = !picture.hasPicture();
  picture.setPicture(state.pages, version);
  const after = { visits: picture.visits(), covers: picture.covers(), version };
  if (!isFirst && version !== before.version) addChanges(before, after, known);
  drafting.refresh();
  dropVanished();
  for (const listener of state.listeners) listener();
  if (isFirst) requestAnimationFrame(() => performance.mark("drawn"));
}

// Only a person can say that an older plan is to be shown after all, as when a server was started from a copy of its journal.
async function goOnFromOlder() {
  forgetSeen();
  picture.forgetPicture();
  state.pages = new Map();
  drafting.forgetDraft();
  await newDesk(settings.name);
  startFollowing();
}
