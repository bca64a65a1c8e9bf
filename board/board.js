// The board: the plan of an airport's stands on a large screen, and changes to it. It talks to the server that serves this page, by the
// requests of docs/reference/http.md, and shows what comes from there as text alone. docs/guide/board.md says how it is used. This module starts the page:
// it joins the others, and does nothing of their work.

import * as axis from "./axis.js";
import { drawCard } from "./card.js";
import { drawChart, forgetRows } from "./chart.js";
import { addVisit, takeMessage } from "./commands.js";
import { openDesks, takeDesk } from "./desk.js";
import { drawDetail } from "./detail.js";
import { isOpen, listenToDialog, show } from "./dialogs.js";
import { $, button, el, say } from "./dom.js";
import { isDragging, listenToMouse } from "./drag.js";
import * as drafting from "./drafting.js";
import { drawDraft } from "./draftlist.js";
import { drawEvents, findEvents, takeSeen } from "./events.js";
import { listenToFind, openFind } from "./find.js";
import { look, onPicture, startFollowing, watchOver } from "./follow.js";
import { drawHealth, faultHappened } from "./health.js";
import { drawChanges, endMarks } from "./history.js";
import { keysList, listenToKeys } from "./keys.js";
import { listenToMenu, menuOf } from "./menu.js";
import * as picture from "./model.js";
import { dropAll, undo } from "./moves.js";
import { chooseFile, forgetFile, listenToFile, openNext } from "./opening.js";
import { pause } from "./net.js";
import { listenToPrint } from "./paper.js";
import { cursor, firstPicked, isPicking } from "./pick.js";
import { partOfKey } from "./plan.js";
import { loadPreferences } from "./preferred.js";
import { applySettings, changeSettingsDialog } from "./prefs.js";
import { publish, settle } from "./publish.js";
import { drawnBy, redraw } from "./redraw.js";
import { goTo, lookAgain, tellRefused } from "./refusal.js";
import { focusStop, rove, setTabStop } from "./roving.js";
import { address, changeSettings, settings } from "./settings.js";
import { closeStand, mend, propose, seeFirst, showEvents } from "./shiftwork.js";
import { listenForTouch } from "./sound.js";
import { DAY } from "./rules.js";
import { dayLong, instant, isInPlan, minuteOfIso, nowMinute, utcClock, zoneName, zoned } from "./times.js";
import { drawWaiting, listenToWaiting } from "./waiting.js";
import { drawWarnings, findWarnings } from "./warnings.js";

const state = { minute: null };
const ROVED = ["alarms", "soonlist", "changelist"];

// ---- What the buttons and the keys do

function moveSight(act) {
  act();
  look();
}

const ACTS = {
  before: () => moveSight(() => axis.shiftDays(-1)),
  after: () => moveSight(() => axis.shiftDays(1)),
  back: () => moveSight(() => axis.shift(-axis.hours() * 15)),
  on: () => moveSight(() => axis.shift(axis.hours() * 15)),
  now: () => moveSight(() => axis.followNow() || say("The present minute is not in this plan.")),
  nearer: () => axis.zoom(-1),
  farther: () => axis.zoom(1),
  visit: addVisit,
  message: takeMessage,
  print: () => window.print(),
  settings: changeSettingsDialog,
  help: () => show("Keys", keysList()),
  undo,
  drop: dropAll,
  publish: () => publish(tellRefused),
  again: () => !drafting.isEmpty() && drafting.pendingDraft() === null && lookAgain(),
  open: chooseFile,
  opennext: openNext,
  forgetfile: forgetFile,
  propose,
  events: showEvents,
  seen: seeFirst,
  close: () => closeStand(cursor().stand),
  sound: () => {
    changeSettings({ sound: settings.sound === "on" ? "off" : "on" });
    redraw();
  },
  find: openFind,
  filter: () => $("filter").focus(),
  act: () => actOnPart($("act").getBoundingClientRect()),
  list: () => focusStop($("waitlist")),
  chart: () => $("chart").focus(),
  alarm: () => focusStop($("alarms")),
  soon: () => focusStop($("soonlist")),
};

function actOnPart(place) {
  const part = firstPicked() ?? cursor().part;
  if (part !== null) menuOf(part, place);
}

function onPageClick(event) {
  const made = event.target.closest("[data-do], [data-goto], .fit");
  if (made === null || made.disabled) return;
  if (made.dataset.do) ACTS[made.dataset.do]();
  else if (made.dataset.stand && !address.isWall) mend(partOfKey(made.dataset.part), made.dataset.stand);
  else if (made.dataset.goto) {
    if (isOpen()) $("dialog").close();
    goTo(partOfKey(made.dataset.goto));
  }
}

// ---- What goes on by itself

function tick() {
  const now = new Date(instant());
  $("utc").textContent = utcClock(now);
  const local = zoned(now);
  $("local").textContent = local === "" ? "" : `${local} ${zoneName()}`;
  drawHealth();
  watchOver();
  if (picture.model() === null) return;
  drawOutside();
  axis.tickAxis(isOpen() || isDragging() || isPicking());
  if (endMarks() | isNewMinute()) redraw();
}

function isNewMinute() {
  const minute = nowMinute();
  if (minute === state.minute) return false;
  state.minute = minute;
  findAll();
  return true;
}

function findAll() {
  findEvents();
  findWarnings();
}

// Where the present minute is not in the plan, the page says so over what it shows.
function drawOutside() {
  const now = nowMinute();
  $("outside").hidden = isInPlan(now);
  const { days } = picture.model();
  const plan = `${dayLong(0)} to ${dayLong((days - 1) * DAY)}`;
  const words = isInPlan(now) ? "" : `${dayLong(now)} is not in this plan, which is of ${plan}. What is shown is not today.`;
  if ($("outside").textContent !== words) $("outside").textContent = words;
}

function drawAll() {
  if (!picture.hasPicture()) return;
  drawChart();
  drawEvents();
  drawWarnings();
  drawWaiting();
  drawDraft();
  drawChanges();
  drawDetail();
  drawCard();
  drawHealth();
  for (const list of ROVED) setTabStop($(list));
}

// ---- The start

function listen() {
  addEventListener("error", (event) => onFault(event.error ?? event.message));
  addEventListener("unhandledrejection", (event) => onFault(event.reason));
  $("chart").addEventListener("scroll", onScroll, { passive: true });
  addEventListener("resize", redraw);
  addEventListener("click", onPageClick);
  addEventListener("storage", () => { takeSeen(); redraw(); });
  addEventListener("visibilitychange", redraw);
  addEventListener("beforeunload", (event) => { if (!drafting.isEmpty()) event.preventDefault(); });
  $("filter").addEventListener("input", () => { $("chart").scrollTop = 0; redraw(); });
  $("hours").append(...axis.HOURS.map((hours) => el("option", { value: hours }, `${hours} h`)));
  $("hours").addEventListener("change", () => axis.setHours(Number($("hours").value)));
  $("pickdate").addEventListener("change", () => {
    const minute = minuteOfIso($("pickdate").value);
    if (isInPlan(minute)) moveSight(() => axis.look(minute));
  });
  for (const list of ROVED) rove($(list));
  listenToMouse();
  listenToKeys(ACTS);
  listenToDialog();
  listenToMenu();
  listenToFind();
  listenToWaiting();
  listenToPrint();
  listenToFile();
  listenForTouch();
}

function onFault(fault) {
  faultHappened(fault);
  drawHealth();
  forgetRows();
  startFollowing();
}

function onScroll() {
  if (axis.onScrolled()) look();
  redraw();
}

function openForPlan() {
  const { days, station } = picture.model();
  $("station").textContent = station;
  $("pickdate").min = new Date(instantOf(0)).toISOString().slice(0, 10);
  $("pickdate").max = new Date(instantOf((days - 1) * DAY)).toISOString().slice(0, 10);
}

const instantOf = (minute) => Date.parse(`${picture.model().first_day}T00:00Z`) + minute * 60000;

// Offers the drafts that were left by pages which did not end by themselves.
async function offerLost() {
  const [lost] = drafting.lostDrafts(await openDesks());
  if (lost === undefined || address.isWall) return;
  const at = new Date(lost.at).toISOString().slice(0, 16).replace("T", " ");
  const words = `A draft of client ${lost.desk} was left here on ${at} UTC, with ${lost.kept.length} changes.`;
  const close = () => { $("recovered").hidden = true; };
  $("recovered").replaceChildren(words, button("Take it up", () => {
    close();
    if (!drafting.isEmpty()) return say("This client has a draft of its own: publish it or drop it first.");
    drafting.takeLost(lost);
    if (drafting.pendingDraft() !== null) settle(tellRefused);
    return look();
  }, { id: "take" }), button("Forget it", () => { drafting.forgetLost(lost.desk); close(); offerLost(); }, { id: "forget" }));
  $("recovered").hidden = false;
}

async function start() {
  document.documentElement.dataset.started = "";
  document.documentElement.classList.toggle("wall", address.isWall);
  applySettings();
  listen();
  drawnBy(drawAll);
  onPicture(findAll);
  const { isOurs } = address.isWall ? { isOurs: false } : await takeDesk(settings.name);
  if (isOurs) drafting.restoreOwn();
  else drafting.forgetCopied();
  setInterval(tick, 1000);
  startFollowing();
  while (!picture.hasPicture()) await pause(50);
  openForPlan();
  tick();
  if (drafting.pendingDraft() !== null) settle(tellRefused);
  offerLost();
  if (!address.isWall) loadPreferences();
}

start();
