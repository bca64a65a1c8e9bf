// The keyboard: the way through the chart and the lists, and a key for each act, with Caps Lock as without.

import { actsOn } from "./acts.js";
import * as axis from "./axis.js";
import { hideCard, shownCard } from "./card.js";
import { barOf, drawChart, placeOfRow, revealRow, rowAtPlace, rowCount } from "./chart.js";
import { isOpen } from "./dialogs.js";
import { endDrag, partAt } from "./drag.js";
import { $, el, say } from "./dom.js";
import { hideMenu, isMenuOpen, menuOf } from "./menu.js";
import * as picture from "./model.js";
import { putOn } from "./moves.js";
import { cursor, drop, fits, firstPicked, isOnlyFits, isPicked, isPicking, pick, pickedParts, setCursor, showOnlyFits } from "./pick.js";
import { index, keyOf, partOf, standOf } from "./plan.js";
import { hideBubble } from "./refusal.js";
import { address } from "./settings.js";
import { nowMinute } from "./times.js";
import { offWords, pickedWords } from "./words.js";

const KEYS = [
  ["↑ ↓", "from row to row; Page Up and Page Down, ten rows"], ["← →", "from part to part of the row"],
  ["Space", "pick the part; again, or Esc, to let it go"],
  ["Enter", "menu of the part; while one is picked, put it here"], ["Shift ↑ ↓", "while one is picked, the next stand that fits"],
  ["K", "while one is picked, only stands that fit"], ["L X J", "back to the list, split, merge"], ["M O F Del", "new times, on block, off block, cancel"],
  ["I", "what is known of the part"], ["Z", "close the stand at the cursor"], ["U", "undo the last change"], ["Ctrl Enter", "publish the draft"],
  ["V", "propose a draft"], ["G", "look again, if overtaken"], ["W C A S", "unallocated parts, chart, first alarm, soon"], ["E", "events"],
  ["N T", "add a visit, movement message"], ["/", "find a flight, a stand or a type"], ["\\", "filter the stands"], ["[ ]", "day before, day after"],
  ["{ }", "a quarter of the hours back, on"], ["+ −", "fewer, more hours in sight"], ["0 Home", "follow now"], ["P ,", "print, settings"],
];

const SHORT = {
  "[": "before", "]": "after", "{": "back", "}": "on", 0: "now", home: "now", n: "visit", t: "message", p: "print", ",": "settings", "?": "help", u: "undo",
  "/": "find", "\\": "filter", w: "list", c: "chart", a: "alarm", s: "soon", e: "events", g: "again", v: "propose", z: "close",
  "+": "nearer", "=": "nearer", "-": "farther",
};
// What a wall can do: only its sight changes.
const ON_WALL = new Set(["before", "after", "back", "on", "now", "nearer", "farther"]);
const PART_ACTS = { l: "lift", x: "cut", j: "join", o: "on", f: "off", m: "times", i: "card", delete: "cancel" };

// Lets keys act; `acts` has what each word does.
export function listenToKeys(acts) {
  addEventListener("keydown", (event) => onKey(event, acts));
}

function onKey(event, acts) {
  if (event.key === "Escape") return escape(event);
  // A field of a dialogue that was closed keeps the focus until the page is drawn again.
  const isField = event.target.matches("input, textarea, select") && event.target.closest("dialog:not([open])") === null;
  const isTyping = isField || isOpen() || isMenuOpen();
  if ((event.ctrlKey || event.metaKey) && event.key === "Enter" && !isOpen()) return acts.publish();
  if (isTyping || event.ctrlKey || event.metaKey || event.altKey || !picture.hasPicture()) return undefined;
  const key = event.key.length === 1 || event.key === "Delete" || event.key === "Home" ? event.key.toLowerCase() : event.key;
  if (!address.isWall && (chartKey(event, key) || partKey(event, key))) return event.preventDefault();
  const act = Object.hasOwn(SHORT, key) ? SHORT[key] : undefined;
  if (act === undefined || (address.isWall && !ON_WALL.has(act))) return undefined;
  event.preventDefault();
  return acts[act]();
}

function escape(event) {
  if (isOpen()) return;
  if (event.target.matches("#filter, #waitfind")) $("chart").focus();
  hideMenu();
  hideBubble();
  hideCard();
  endDrag();
  drop();
}

function chartKey(event, key) {
  if (key === "k" && isPicking()) {
    showOnlyFits(!isOnlyFits());
    return true;
  }
  const by = { ArrowDown: 1, ArrowUp: -1 }[key];
  if (document.activeElement !== $("chart")) return false;
  if (by !== undefined) step(by, event.shiftKey);
  else if (key === "ArrowRight" || key === "ArrowLeft") along(key === "ArrowRight" ? 1 : -1);
  else if (key === "PageDown" || key === "PageUp") for (let left = 10; left > 0; left--) step(key === "PageDown" ? 1 : -1);
  else if (key === "Enter" && isPicking() && cursor().stand !== null) putOn(cursor().stand);
  else return false;
  if (shownCard() !== null) hideCard();
  return true;
}

// The part that keys act on: of a list where the focus is there, else of the chart's cursor.
const partOfKeys = () => partAt(document.activeElement) ?? cursor().part;

function partKey(event, key) {
  const inPlace = document.activeElement === $("chart") || document.activeElement.closest(".wait") !== null;
  const part = isPicking() && key === " " ? firstPicked() : partOfKeys();
  if (!inPlace || part === null || partOf(part) === undefined) return false;
  if (key === " ") togglePick(part);
  else if (key === "Enter") menuOf(part, (barOf(part) ?? document.activeElement).getBoundingClientRect());
  else if (key === "l" && pickedParts().length > 1) actsOn(part).liftall();
  else if (Object.hasOwn(PART_ACTS, key)) actsOn(part)[PART_ACTS[key]]();
  else return false;
  return true;
}

// Picks by key, with the cursor then in the chart, where the part is to go.
function togglePick(part) {
  if (isPicked(keyOf(part.visit, part.part))) return drop();
  pick(part);
  sayPicked();
  $("chart").focus();
  if (cursor().stand === null || partOf(part).stand === null) {
    setCursor(null, null);
    step(1, true);
  }
  return undefined;
}

function sayPicked() {
  const count = fits()?.filter((off) => off === null).length ?? 0;
  say(`${pickedWords()} picked; ${count === 1 ? "1 stand fits" : `${count} stands fit`}.`);
}

// ---- The cursor

const partsOn = (stand) => index()[stand].filter((slot) => slot.from < axis.end() && slot.end > axis.start()).sort((one, other) => one.from - other.from);

// The next row of a stand in a direction; while a part is picked and `fitting`, the next on which it fits.
function step(by, fitting = false) {
  let place = placeOfRow(cursor().stand) ?? -1;
  for (let left = rowCount(); left > 0; left--) {
    place += by;
    if (place < 0 || place >= rowCount()) return;
    const { stand } = rowAtPlace(place);
    if (stand === undefined || (fitting && fits() !== null && fits()[stand] !== null)) continue;
    arrive(stand);
    return;
  }
}

function arrive(stand) {
  const { name } = standOf(stand);
  if (isPicking()) {
    const off = fits()[stand];
    toCursor(stand, null);
    say(`${name}: ${off === null ? "fits" : offWords(off, stand)}`);
    return;
  }
  const parts = partsOn(stand);
  const at = cursor().part === null ? Math.min(Math.max(nowMinute(), axis.start()), axis.end()) : partOf(cursor().part)?.from ?? 0;
  const near = parts.toSorted((one, other) => Math.abs(one.from - at) - Math.abs(other.from - at))[0];
  toCursor(stand, near === undefined ? null : { visit: near.visit, part: near.part });
  if (near === undefined) say(`${name}: empty`);
}

function toCursor(stand, part) {
  setCursor(stand, part);
  revealRow(stand);
  drawChart();
}

function along(by) {
  const { stand, part } = cursor();
  if (stand === null) return;
  const parts = index()[stand].toSorted((one, other) => one.from - other.from);
  const place = part === null ? -1 : parts.findIndex((slot) => slot.visit === part.visit && slot.part === part.part);
  const next = parts[place + by] ?? parts[place];
  if (next === undefined) return;
  axis.reveal(next.from, next.to);
  toCursor(stand, { visit: next.visit, part: next.part });
}

export const keysList = () => el("dl", {}, ...KEYS.flatMap(([key, words]) => [el("dt", {}, key), el("dd", {}, words)]));
