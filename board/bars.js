// What stands in one row of the chart: bars with their names and delays, the scheduled places, shadows, and where a picked part would stand.

import * as axis from "./axis.js";
import { isClosure } from "./closures.js";
import { delayBand, delayWords, delaysOf, ghostOf, timesOf } from "./delays.js";
import { el } from "./dom.js";
import { isBlamed } from "./drafting.js";
import { isAlarmed } from "./events.js";
import { isComplete } from "./follow.js";
import { isMarked } from "./history.js";
import * as picture from "./model.js";
import { isPicked, offOf, pickedParts } from "./pick.js";
import { howOf, index, isDrafted, keyOf, partOf, standOf, visitOf, visits } from "./plan.js";
import { shadowsOf } from "./shadows.js";
import { settings } from "./settings.js";
import { clock, nowMinute } from "./times.js";
import { flightOf } from "./visits.js";
import { offWords, shadowWords } from "./words.js";

export const HOW = { expected: "expected", onblock: "on block", overdue: "overdue", gone: "gone" };
const LEAST_ROOM = 10;
// How wide the ends of a bar are that is late or early, as in chart.css.
const EDGES = { late: 4, verylate: 7, early: 3 };
// What the words of a picked part's place have around them, as in chart.css.
const SPOT_EDGES = 14;
// How large small letters are, as in chart.css.
const SMALL = 0.8;
const SIZES = { small: SMALL, tiny: 0.68 };
const BAR_FONT = '"Roboto Condensed", "Arial Narrow", "Liberation Sans Narrow", "DejaVu Sans Condensed", sans-serif';

let [letters, line] = [12, 24];
const pen = document.createElement("canvas").getContext("2d");
const widths = new Map();

// Sets the size of the names in bars and the height of a row; by them the page knows which have room.
export function setBarFont(size, height) {
  letters = size;
  line = height;
  const font = `600 ${size}px ${BAR_FONT}`;
  if (pen.font === font) return;
  pen.font = font;
  widths.clear();
}

function widthOf(text) {
  if (!widths.has(text)) widths.set(text, pen.measureText(text).width);
  return widths.get(text);
}

const known = new WeakMap();

// The scheduled, expected and actual times of a visit at the present minute.
export function timesFor(visit) {
  const now = nowMinute();
  const kept = known.get(visit);
  if (kept?.now === now) return kept.times;
  const times = timesOf(visit, now);
  known.set(visit, { now, times });
  return times;
}

const px = (number) => `${Math.round(number * 10) / 10}px`;
const place = (from, to) => ({ left: px(axis.xOf(from)), width: px(Math.max(0, to - from) * axis.pixels()) });

// The last minute that a bar's stay covers: of an overdue aircraft up to now.
const stayTo = (slot, how) => (how === "overdue" ? Math.max(slot.to, nowMinute()) : slot.to);

// Everything of a row between two minutes: {key, sign, paint}, where paint makes a fresh element so, or one that was made before.
export function itemsOf(stand, from, to) {
  const slots = index()[stand].map((slot) => ({ slot, visit: visitOf(slot.visit), how: howOf(visitOf(slot.visit), slot.part) }))
    .filter(({ slot, how }) => slot.from < to && Math.max(slot.end, stayTo(slot, how)) > from);
  const spot = spotOf(stand);
  return [
    ...shadows(stand, from, to, slots, spot), ...olds(stand, from, to), ...laned(slots).map((it) => bar(it, spot)),
    ...slots.filter(({ how }) => how !== "gone").flatMap(scheduled), ...(spot === null ? [] : [spotItem(spot)]),
  ];
}

// Puts stays that overlap onto lines of their own.
function laned(slots) {
  slots.sort((one, other) => one.slot.from - other.slot.from || one.slot.visit - other.slot.visit);
  let group = [];
  let until = -Infinity;
  let ends = [];
  const close = () => group.forEach((it) => { it.lanes = ends.length; });
  for (const it of slots) {
    if (it.slot.from >= until) {
      close();
      group = [];
      ends = [];
    }
    const free = ends.findIndex((end) => end <= it.slot.from);
    it.lane = free < 0 ? ends.length : free;
    ends[it.lane] = stayTo(it.slot, it.how);
    until = Math.max(group.length === 0 ? -Infinity : until, ends[it.lane]);
    group.push(it);
  }
  close();
  return slots;
}

// ---- A bar

function bar({ slot, visit, how, lane, lanes }, spot) {
  const key = keyOf(slot.visit, slot.part);
  const times = timesFor(visit);
  const classes = classesOf(slot, visit, how, times, key);
  const [from, until] = freeOf(Math.max(slot.from, axis.start()), Math.min(slot.to, axis.end()), spot);
  const edges = (EDGES[/ on-(\w+)/.exec(classes)?.[1]] ?? 2) + (EDGES[/ off-(late|verylate)/.exec(classes)?.[1]] ?? 1);
  const room = (until - from) * axis.pixels() - edges;
  const isCut = slot.from < axis.start() && from === axis.start();
  const margins = { "margin-left": px(isCut ? 0 : (from - slot.from) * axis.pixels()), "margin-right": px(Math.max(0, slot.to - until) * axis.pixels()) };
  const { pieces, size } = isClosure(visit) ? closurePieces(visit, room) : piecesOf(slot, visit, how, times, room, lanes);
  const label = `${flightOf(visit)}, ${visit.type}, ${HOW[how]}, ${standOf(slot.stand).name}, ${clock(slot.from)}–${clock(slot.to)}`
    + `${times.late?.part === slot.part ? ", late, not here yet" : ""}`;
  const { left, width } = place(slot.from, slot.to);
  const tail = Math.max(slot.end, how === "overdue" ? nowMinute() : slot.end) - slot.to;
  const buffer = px(Math.max(0, tail) * axis.pixels());
  const share = { top: `${(100 * lane) / lanes}%`, height: `${100 / lanes}%` };
  const name = pieces.map(({ text, kind }) => kind + text).join("·");
  const sign = [classes, left, width, buffer, share.top, share.height, label, size, name, isCut, ...Object.values(margins)].join("|");
  return {
    key: `p${key}`, sign,
    paint: (old) => {
      const made = old ?? el("div", { id: `p${key}`, "data-key": key, role: "gridcell" });
      made.className = classes;
      Object.assign(made.dataset, { from: slot.from, to: slot.to, how });
      Object.assign(made.style, { left, width, ...share });
      made.setAttribute("aria-label", label);
      made.replaceChildren(
        el("span", { class: `${isCut ? "stuck" : ""}${size}`, style: margins }, ...pieces.map(({ kind, text }) => el(kind === "flight" ? "b" : "i", { class: kind }, text))),
        el("u", { style: { width: buffer } }));
      return made;
    },
  };
}

// The minutes in which a bar has room for words: of those that the words of the picked part's place leave free the longer piece.
function freeOf(from, to, spot) {
  if (spot === null || spot.until <= from || spot.from >= to) return [from, to];
  return spot.from - from >= to - spot.until ? [from, spot.from] : [spot.until, to];
}

function classesOf(slot, visit, how, times, key) {
  const { begin, end } = delaysOf(visit, slot.part);
  const states = isAlarmed(key) ? " alarmed" : "";
  if (isClosure(visit)) return `bar ${how} closure${states}${isPicked(key) ? " picked" : ""}`;
  return ["bar", how,
    how !== "gone" && `on-${delayBand(begin)}`, how !== "gone" && `off-${delayBand(end)}`,
    times.shorter > 0 && how === "expected" && "short", times.late?.part === slot.part && "late",
    isBlamed(key) && "blamed", isMarked(key) && "marked",
    isDrafted(visit, slot.part) && "drafted", isPicked(key) && "picked"].filter(Boolean).join(" ") + states;
}

// The pieces of a name that have room, the richest first; what has no room is left out. On a part of a line there is room for small letters only.
function piecesOf(slot, visit, how, times, room, lanes) {
  if (room < LEAST_ROOM || (lanes > 1 && (how === "gone" || line / lanes < letters * SMALL))) return { pieces: [], size: "" };
  const [arrival, departure] = [visit.arr?.flight, visit.dep?.flight];
  const mark = how === "overdue" ? "! " : times.late?.part === slot.part ? "? " : "";
  const flight = { kind: "flight", text: mark + flightOf(visit) };
  const both = { kind: "flight", text: mark + (arrival && departure ? `${arrival}/${departure}` : flightOf(visit)) };
  const delay = delayPiece(slot, visit, how);
  const type = { kind: "type", text: visit.type };
  const on = { kind: "time", text: clock(slot.from) };
  const off = { kind: "time end", text: clock(slot.to) };
  const choices = [[on, both, type, ...delay, off], [on, both, ...delay, off], [both, type, ...delay], [both, ...delay], [flight, ...delay], [flight]];
  const scale = lanes > 1 ? SMALL : 1;
  const pieces = choices.find((it) => roomFor(it) * scale <= room);
  if (pieces !== undefined) return { pieces, size: lanes > 1 ? " small" : "" };
  const size = Object.keys(SIZES).find((it) => roomFor([flight]) * SIZES[it] <= room);
  return size === undefined || lanes > 1 ? { pieces: [], size: "" } : { pieces: [flight], size: ` ${size}` };
}

const roomFor = (pieces) => pieces.reduce((sum, { text }) => sum + widthOf(text) + 5, 1);

// The delay that counts now: of an arrival before it is there, and of a departure after.
function delayPiece(slot, visit, how) {
  const { begin, end } = delaysOf(visit, slot.part);
  const delay = how === "expected" ? begin : end;
  if (how === "gone" || delayBand(delay) === "ontime") return [];
  return [{ kind: `delay ${delayBand(delay)}`, text: delayWords(delay) }];
}

function closurePieces(visit, room) {
  const words = [{ kind: "flight", text: `closed ${visit.name.slice(7)}` }];
  return { pieces: roomFor(words) <= room ? words : [], size: "" };
}

// ---- Beside the bars

function block(key, from, to, className, words, data = {}) {
  const { left, width } = place(from, to);
  const isWide = words !== "" && roomFor([{ text: words }]) <= (to - from) * axis.pixels();
  return {
    key, sign: `${left}|${width}|${className}|${words}|${isWide}`,
    paint: (old) => {
      const made = old ?? el("div", {});
      made.className = className;
      Object.assign(made.dataset, data, { from, to });
      Object.assign(made.style, { left, width });
      made.replaceChildren(...(isWide ? [el("span", {}, words)] : []));
      return made;
    },
  };
}

// Where a visit was scheduled, if it is now elsewhere in time.
function scheduled({ slot, visit }) {
  const ghost = ghostOf(visit, slot.part);
  const { begin, end } = delaysOf(visit, slot.part);
  if (ghost === null || isClosure(visit) || (delayBand(begin) === "ontime" && delayBand(end) === "ontime")) return [];
  return [block(`s${keyOf(slot.visit, slot.part)}`, ghost.from, ghost.to, "sched", "")];
}

// What shuts the stand out from now on though nobody is on it; it says so where neither a bar nor another shadow is in the way of the words.
function shadows(stand, from, to, slots, spot) {
  if (settings.shadows === "off") return [];
  let written = -Infinity;
  const now = nowMinute();
  const all = shadowsOf(picture.model(), index(), stand, Math.max(from, now), to).map((it) => ({ ...it, from: Math.max(it.from, now) }));
  return all.map((it, place) => {
    const words = shadowWords(it);
    const until = it.from + roomFor([{ text: words }]) / axis.pixels();
    const isFree = it.from >= written && !(all[place + 1]?.from < until) && !slots.some(({ slot }) => slot.from < until && slot.end > it.from)
      && !(spot !== null && spot.from < until && spot.until > it.from);
    if (isFree) written = until;
    const className = `shade ${it.rule === "split" ? "split" : "wide"}${it.whole ? " whole" : ""}`;
    return block(`h${it.visit}.${it.part}.${it.end}.${it.rule}`, it.from, it.end, className, isFree ? words : "");
  });
}

// Where parts that the draft moves are in the plan as it is.
function olds(stand, from, to) {
  if (visits() === picture.visits()) return [];
  const { name } = standOf(stand);
  return [...visits().values()].filter((visit) => picture.visits().get(visit.visit) !== visit).flatMap((visit) =>
    picture.visits().get(visit.visit).parts.flatMap((it, at) => {
      const now = visit.parts[at];
      const isMoved = it.stand === name && (now === undefined || now.stand !== name || now.to !== it.to);
      return isMoved && it.from < to && it.to > from ? [block(`o${keyOf(visit.visit, at + 1)}`, it.from, it.to, "old", "")] : [];
    }));
}

// Where the picked part would stand in a row, or what keeps it off, up to the minute at which the words end; or null.
function spotOf(stand) {
  const off = offOf(stand);
  if (off === undefined) return null;
  const [picked] = pickedParts();
  const it = partOf(picked);
  const { buffer, name } = standOf(stand);
  if (it.stand === name) return null;
  const words = off !== null ? `× ${offWords(off, stand)}` : isComplete() ? "✓ fits" : "✓ fits on the days that are read";
  const end = it.to + buffer;
  return { from: it.from, end, until: Math.max(end, it.from + (roomFor([{ text: words }]) + SPOT_EDGES) / axis.pixels()), words, isFit: off === null };
}

function spotItem({ from, end, words, isFit }) {
  const { left, width } = place(from, end);
  const className = `spot ${isFit ? "fits" : "off"}`;
  return {
    key: "spot", sign: `${left}|${width}|${className}|${words}`,
    paint: (old) => {
      const made = old ?? el("div", {}, el("span", {}));
      made.className = className;
      Object.assign(made.style, { left, width });
      made.firstChild.textContent = words;
      return made;
    },
  };
}
