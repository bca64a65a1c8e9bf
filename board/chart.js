// The chart: its ruler, and its rows, of which only those near the sight are in the document. An element stays as long as what it shows does,
// so that a redraw touches only what changed.

import * as axis from "./axis.js";
import { itemsOf, setBarFont } from "./bars.js";
import { $, el, fillKeyed, setText } from "./dom.js";
import * as picture from "./model.js";
import { cursor, fits, isOnlyFits, isPicking } from "./pick.js";
import { keyOf } from "./plan.js";
import { isPreferred } from "./preferred.js";
import { DAY } from "./rules.js";
import { address, settings } from "./settings.js";
import { clock, dateOf, dayLong, dayName, dayShort, isInPlan, isoOf, nowMinute, zoned } from "./times.js";

// So many rows are drawn above and below those in sight, so that none is missing while the chart is scrolled.
const ROWS_BEYOND = 5;
// So many minutes for each hour in sight are drawn before and after it.
const BEYOND = 6;
const [LEAST_ON_WALL, MOST_ON_WALL] = [20, 46];
const HEIGHTS = { dense: 1.28, normal: 1.62, tall: 2.1 };

const state = { rows: [], place: new Map(), made: new Map(), height: 24, printed: null, rowsOf: "", filter: "" };

export const rowCount = () => state.rows.length;
export const rowHeight = () => state.height;
export const placeOfRow = (stand) => state.place.get(stand);
export const rowAtPlace = (place) => state.rows[place];

// ---- Rows

// A filter of words: a name or its beginning, "=C" for a letter, "@BN" for a frontage. Names and frontages add up, letters narrow down.
function filterOf(text) {
  const words = text.toUpperCase().split(/[\s,]+/).filter((word) => word !== "");
  const letters = words.filter((word) => word.startsWith("=")).map((word) => word.slice(1));
  const frontages = [...words.filter((word) => word.startsWith("@")).map((word) => word.slice(1))];
  const names = words.filter((word) => !/^[=@]/.test(word)).map((word) => word.replace(/\*$/, ""));
  const placed = ({ name, frontage }) => names.some((it) => name.startsWith(it)) || frontages.includes(frontage);
  const isOurs = ({ frontage }) => address.frontages.length === 0 || address.frontages.includes(frontage);
  return (stand) => isOurs(stand) && (letters.length === 0 || letters.includes(stand.letter)) && (names.length + frontages.length === 0 || placed(stand));
}

// The rows: the stands that pass the filter, in the airport's order, each frontage with a line of its own before them.
function makeRows() {
  const off = isOnlyFits() ? fits() : null;
  const key = `${$("filter").value}|${off === null ? "" : off.map((it) => (it === null ? 1 : 0)).join("")}`;
  if (key === state.rowsOf) return;
  state.rowsOf = key;
  const passes = filterOf($("filter").value);
  const byFrontage = new Map();
  picture.model().stands.forEach((stand, place) => {
    if (!byFrontage.has(stand.frontage)) byFrontage.set(stand.frontage, []);
    if (passes(stand) && (off === null || off[place] === null)) byFrontage.get(stand.frontage).push(place);
  });
  state.rows = [...byFrontage].flatMap(([frontage, places]) =>
    (places.length === 0 ? [] : [{ frontage, count: places.length }, ...places.map((stand) => ({ stand }))]));
  state.place = new Map(state.rows.map((row, place) => [row.stand, place]));
  $("chart").setAttribute("aria-rowcount", String(state.rows.length));
  $("norows").hidden = state.rows.length > 0;
  for (const { node } of state.made.values()) node.remove();
  state.made.clear();
}

export function clearFilter() {
  $("filter").value = "";
}

export function forgetRows() {
  state.rowsOf = "";
}

// ---- Drawing

export function drawChart() {
  if (picture.model() === null) return;
  makeRows();
  axis.measure();
  // What is measured is measured before anything is changed.
  const sight = { top: $("chart").scrollTop, bottom: $("chart").scrollTop + $("chart").clientHeight };
  const height = state.printed ?? (address.isWall ? wallHeight() : Math.round((HEIGHTS[settings.rows] ?? HEIGHTS.normal) * axis.fontSize()));
  if (height !== state.height) {
    state.height = height;
    document.documentElement.style.setProperty("--row", `${height}px`);
    for (const { node } of state.made.values()) node.remove();
    state.made.clear();
  }
  setBarFont(lettersFor(height), height);
  drawRuler();
  $("rows").style.setProperty("height", `${state.rows.length * height}px`);
  $("chart").classList.toggle("picking", isPicking());
  drawRowsInSight(sight);
}

// The size of the names in bars, as chart.css and paper.css have it.
function lettersFor(height) {
  if (state.printed !== null) return height * 0.7;
  return address.isWall ? Math.min(axis.fontSize() * 1.2, height * 0.6) : Math.min(axis.fontSize() * 0.88, height * 0.62);
}

// The rows of a wall share its height, within what can be read.
function wallHeight() {
  const room = $("chart").clientHeight - $("ruler").offsetHeight;
  return Math.min(Math.max(Math.floor(room / Math.max(1, state.rows.length)), LEAST_ON_WALL), MOST_ON_WALL);
}

function drawRowsInSight({ top, bottom }) {
  const { height, rows, made } = state;
  const isAll = state.printed !== null;
  const first = isAll ? 0 : Math.max(0, Math.floor(top / height) - ROWS_BEYOND);
  const last = isAll ? rows.length - 1 : Math.min(rows.length - 1, Math.ceil(bottom / height) + ROWS_BEYOND);
  for (const [place, { node }] of made) {
    if (place < first || place > last) {
      node.remove();
      made.delete(place);
    }
  }
  const beyond = isAll ? 0 : axis.hours() * BEYOND;
  const minutes = [axis.start() - beyond, axis.end() + beyond];
  for (let place = first; place <= last; place++) {
    if (!made.has(place)) made.set(place, newRow(rows[place], place));
    if (rows[place].stand !== undefined) drawRow(made.get(place), rows[place].stand, minutes);
  }
  drawCursor();
}

// Rows are in the document in their order, also those that came later.
function newRow(row, place) {
  const node = row.frontage === undefined ? standRow(row, place) : frontageRow(row, place);
  let after = null;
  for (const [other, it] of state.made) if (other > place && (after === null || other < after.place)) after = { place: other, node: it.node };
  $("rows").insertBefore(node, after === null ? null : after.node);
  return { node, track: node.querySelector(".track"), items: new Map(), fit: "" };
}

function frontageRow({ frontage, count }, place) {
  const objects = picture.model().objectsOf.get(frontage).length;
  const words = `${count} stand${count === 1 ? "" : "s"}${objects > 0 ? `, ${objects} object${objects === 1 ? "" : "s"}` : ""}`;
  return el("div", { class: "frontage", role: "row", "aria-rowindex": place + 1, style: { top: `${place * state.height}px` } },
    el("span", { role: "gridcell" }, el("b", {}, `Frontage ${frontage}`), ` ${words}`));
}

function standRow({ stand }, place) {
  const it = picture.model().stands[stand];
  return el("div", { class: "row", role: "row", "aria-rowindex": place + 1, "data-stand": stand, style: { top: `${place * state.height}px` } },
    el("div", { class: "stand", role: "rowheader", id: `s${stand}` }, el("b", { class: it.half_of === null ? "" : "half" }, it.name), el("i", {}, it.letter)),
    el("div", { class: "track" }));
}

function drawRow(row, stand, [from, to]) {
  const off = fits()?.[stand];
  const fit = off === undefined ? "" : `${off === null ? "fits" : "off"}${isPreferred(stand) ? " preferred" : ""}`;
  if (fit !== row.fit) {
    row.node.classList.remove("fits", "off", "preferred");
    if (fit !== "") row.node.classList.add(...fit.split(" "));
    row.fit = fit;
  }
  const left = new Set(row.items.keys());
  for (const { key, sign, paint } of itemsOf(stand, from, to)) {
    left.delete(key);
    const old = row.items.get(key);
    if (old?.sign === sign) continue;
    const node = paint(old?.node);
    if (old === undefined) row.track.append(node);
    row.items.set(key, { node, sign });
  }
  for (const key of left) {
    row.items.get(key).node.remove();
    row.items.delete(key);
  }
}

// ---- The ruler

function drawRuler() {
  const hour = axis.pixels() * 60;
  const every = [1, 2, 3, 6].find((step) => step * hour >= 30) ?? 12;
  const first = Math.floor(axis.start() / 60 / every) * every - 2 * every;
  const marks = [];
  for (let at = first; at * 60 <= axis.end() + 120; at += every) {
    const minute = at * 60;
    const isDay = minute % DAY === 0;
    const local = isDay ? dayName(minute) : zoned(dateOf(minute));
    const words = clock(minute).slice(0, 2);
    marks.push({
      key: String(minute), sign: `${axis.xOf(minute)}|${words}|${local}`,
      make: () => el("span", { class: isDay ? "day" : "", style: { left: `${axis.xOf(minute)}px` } },
        el("b", {}, words), local === "" ? null : el("small", {}, local)),
    });
  }
  fillKeyed($("scale"), marks);
  drawNow();
  setText($("corner"), settings.zone === "" ? "UTC" : "UTC / local");
  drawDates();
}

function drawNow() {
  const now = nowMinute();
  const isIn = isInPlan(now);
  const at = `${axis.xOf(now)}px`;
  $("nowflag").hidden = !isIn;
  $("nowline").hidden = !isIn;
  setText($("nowflag"), clock(now));
  $("nowflag").style.setProperty("left", `calc(var(--label) + ${at})`);
  $("nowline").style.setProperty("left", `calc(var(--label) + ${at})`);
}

function drawDates() {
  const [first, last] = [axis.start() + 1, axis.end() - 1];
  const words = isoOf(first) === isoOf(last) ? dayLong(first) : `${dayShort(first)} – ${dayLong(last)}`;
  setText($("date"), words);
  const picked = $("pickdate");
  const middle = isoOf(axis.start() + axis.hours() * 20);
  if (document.activeElement !== picked && picked.value !== middle) picked.value = middle;
  if (document.activeElement !== $("hours")) showHours();
  $("follow").setAttribute("aria-pressed", String(axis.isFollowing()));
}

function showHours() {
  const list = $("hours");
  const value = String(axis.hours());
  if (list.value === value) return;
  list.querySelector("[data-odd]")?.remove();
  if (!axis.HOURS.includes(axis.hours())) list.prepend(el("option", { value, "data-odd": "" }, `${value} h`));
  list.value = value;
}

// ---- The cursor

export const barOf = ({ visit, part }) => document.getElementById(`p${keyOf(visit, part)}`);

function drawCursor() {
  const { stand, part } = cursor();
  const row = state.made.get(state.place.get(stand))?.node ?? null;
  const bar = part === null ? null : barOf(part);
  for (const old of $("rows").querySelectorAll(".cursor")) if (old !== row && old !== bar) old.classList.remove("cursor");
  if (row) row.classList.add("cursor");
  if (bar) bar.classList.add("cursor");
  const active = bar ?? (row === null ? null : $(`s${stand}`));
  if (active) $("chart").setAttribute("aria-activedescendant", active.id);
  else $("chart").removeAttribute("aria-activedescendant");
}

// Scrolls a row into sight.
export function revealRow(stand) {
  const chart = $("chart");
  const place = state.place.get(stand);
  if (place === undefined) return;
  const head = $("ruler").offsetHeight;
  const top = place * state.height;
  if (top < chart.scrollTop) chart.scrollTop = Math.max(0, top - state.height);
  else if (top + state.height > chart.scrollTop + chart.clientHeight - head) chart.scrollTop = top + 2 * state.height + head - chart.clientHeight;
}

// The row at a height of the window: the stand's place, or null.
export function standAtHeight(y) {
  const chart = $("chart");
  const box = chart.getBoundingClientRect();
  const head = $("ruler").offsetHeight;
  if (y < box.top + head || y > box.bottom) return null;
  return state.rows[Math.floor((y - box.top - head + chart.scrollTop) / state.height)]?.stand ?? null;
}

export const rowNode = (stand) => state.made.get(state.place.get(stand))?.node ?? null;

// Lays all rows out at once for paper, in so much height; or for the screen again.
export function printRows(height) {
  state.printed = height === null ? null : Math.min(22, height / Math.max(1, state.rows.length));
  state.height = 0;
}
