// The mouse in the chart and the lists: a bar is dragged to another stand, or along its row to another time; free ground moves the sight, and
// with Shift a frame picks what is in it.

import * as axis from "./axis.js";
import { hideCard, restOn } from "./card.js";
import { barOf, rowHeight, rowNode, standAtHeight } from "./chart.js";
import { newTimes } from "./commands.js";
import { $, setText } from "./dom.js";
import { hideMenu, menuOf } from "./menu.js";
import { lift, putOn } from "./moves.js";
import { drop, fits, isPicked, isPicking, pick, pickAll, pickMore, pickedParts, setCursor } from "./pick.js";
import { keyOf, partName, partOf, partOfKey, placeOf, standOf, visitOf } from "./plan.js";
import { hideBubble } from "./refusal.js";
import { address } from "./settings.js";
import { clock } from "./times.js";
import { isLive } from "./visits.js";
import { offWords } from "./words.js";

const FAR = 5;
const ALONG = 14;
const EDGE = 9;

// What the mouse does while its button is down: null, or {kind, x, y, ..}.
const state = { held: null, asked: false, over: null };

export const partAt = (target) => {
  const key = target.closest?.("[data-key]")?.dataset.key;
  return key === undefined || !/^\d+\.\d+$/.test(key) ? null : partOfKey(key);
};

export const isDragging = () => state.held?.moves === true;

function onDown(event) {
  if (event.button !== 0 || event.pointerType === "touch") return;
  hideMenu();
  hideCard();
  const { clientX: x, clientY: y } = event;
  const part = address.isWall ? null : partAt(event.target);
  if (part !== null && partOf(part) !== undefined) {
    const bar = event.target.closest(".bar");
    const box = bar?.getBoundingClientRect();
    state.held = { kind: "part", part, x, y, moves: false, isEdge: box !== undefined && box.width > 3 * EDGE && x > box.right - EDGE, inChart: bar !== null };
  } else if (event.target.closest("#ruler, .track") !== null) {
    const chart = $("chart");
    const kind = event.shiftKey && !address.isWall ? "frame" : "ground";
    state.held = { kind, x, y, moves: false, left: chart.scrollLeft, top: chart.scrollTop };
  }
}

function onMove(event) {
  const { held } = state;
  if (held === null) {
    if (!address.isWall) restOnBar(event);
    return;
  }
  if (!held.moves && Math.hypot(event.clientX - held.x, event.clientY - held.y) > FAR) begin(held);
  if (!held.moves) return;
  event.preventDefault();
  held.at = { x: event.clientX, y: event.clientY };
  if (state.asked) return;
  state.asked = true;
  requestAnimationFrame(() => {
    state.asked = false;
    if (state.held !== null) showHeld(state.held);
  });
}

function restOnBar(event) {
  const bar = event.target.closest?.(".bar") ?? null;
  if (bar === state.over) return;
  state.over = bar;
  restOn(bar === null ? null : partAt(bar));
}

function begin(held) {
  held.moves = true;
  $("veil").hidden = false;
  if (held.kind !== "part") return;
  hideBubble();
  if (!isPicked(keyOf(held.part.visit, held.part.part))) pick(held.part);
  $("ghost").hidden = false;
}

function showHeld(held) {
  const { x, y } = held.at;
  if (held.kind === "ground") {
    $("chart").scrollLeft = held.left - (x - held.x);
    $("chart").scrollTop = held.top - (y - held.y);
  } else if (held.kind === "frame") showFrame(held);
  else showGhost(held, x, y);
}

function showFrame({ x, y, at }) {
  const frame = $("frame");
  frame.hidden = false;
  const [width, height] = [Math.abs(at.x - x), Math.abs(at.y - y)];
  Object.assign(frame.style, { left: `${Math.min(x, at.x)}px`, top: `${Math.min(y, at.y)}px`, width: `${width}px`, height: `${height}px` });
}

// ---- A part that is dragged

// Where a dragged part would go: {stand}, {times}, {list}, or null.
function targetOf(held) {
  const { x, y } = held.at;
  const side = $("side").getBoundingClientRect();
  if (x >= side.left && y >= side.top && x <= side.right && y <= side.bottom) return { list: true };
  const stand = standAtHeight(y);
  if (stand === null) return null;
  const it = partOf(held.part);
  const isHome = held.inChart && it.stand !== null && placeOf(it.stand) === stand && pickedParts().length < 2;
  if (!isHome) return { stand };
  return Math.abs(x - held.x) > ALONG && isLive(visitOf(held.part.visit)) ? { times: timesFor(held, it) } : null;
}

// The times that a drag along the row says: of an aircraft that is expected the whole stay, else, or at its edge, its end.
function timesFor(held, it) {
  const step = axis.pixels() < 1.5 ? 5 : 1;
  const by = Math.round((held.at.x - held.x) / axis.pixels() / step) * step;
  const visit = visitOf(held.part.visit);
  const isEnd = held.isEdge || visit.state === "onblock" || held.part.part > 1;
  return isEnd ? { off: visit.parts.at(-1).to + by } : { on: it.from + by };
}

function showGhost(held, x, y) {
  const ghost = $("ghost");
  const target = targetOf(held);
  ghost.style.setProperty("transform", `translate(${x + 12}px, ${y + 12}px)`);
  const off = target?.stand === undefined ? undefined : fits()?.[target.stand];
  ghost.className = off === undefined ? "" : off === null ? "fits" : "off";
  setText(ghost, ghostWords(held, target, off));
  const row = target?.stand === undefined ? null : rowNode(target.stand);
  if (row !== held.row) {
    held.row?.classList.remove("over");
    row?.classList.add("over");
    held.row = row;
  }
}

function ghostWords(held, target, off) {
  const count = pickedParts().length;
  const name = count > 1 ? `${count} parts` : partName(held.part);
  if (target === null) return name;
  if (target.list) return `${name} · back to the list`;
  if (target.times) return `${name} · ${target.times.on === undefined ? `off block ${clock(target.times.off)}` : `on block ${clock(target.times.on)}`}`;
  const { name: stand } = standOf(target.stand);
  return `${name} · ${stand} ${off === undefined ? "" : off === null ? "✓" : `× ${offWords(off, target.stand)}`}`;
}

// While something is dragged near an edge of the chart, the chart scrolls on.
function scrollDragged() {
  const { held } = state;
  if (held?.kind !== "part" || held.at === undefined) return;
  const { top, bottom } = $("chart").getBoundingClientRect();
  const by = held.at.y < top + 50 ? -rowHeight() : held.at.y > bottom - 40 ? rowHeight() : 0;
  if (by !== 0) $("chart").scrollTop += by;
}

function onUp(event) {
  const { held } = state;
  endDrag();
  if (held === null || !held.moves) return;
  swallowClick();
  held.at = { x: event.clientX, y: event.clientY };
  if (held.kind === "frame") pickFramed(held);
  if (held.kind === "part" && isPicking() && partOf(held.part) !== undefined) dropAt(targetOf(held), held.part);
}

function dropAt(target, part) {
  if (target === null) drop();
  else if (target.list) lift(pickedParts());
  else if (target.times) {
    drop();
    newTimes(part, target.times);
  } else putOn(target.stand);
}

function pickFramed({ x, y, at }) {
  const [left, right] = [Math.min(x, at.x), Math.max(x, at.x)];
  const [top, bottom] = [Math.min(y, at.y), Math.max(y, at.y)];
  const keys = [...document.querySelectorAll(".bar")].filter((bar) => {
    const box = bar.getBoundingClientRect();
    return box.right > left && box.left < right && box.bottom > top && box.top < bottom;
  }).map((bar) => bar.dataset.key).filter((key) => !partOf(partOfKey(key)).actual);
  pickAll(keys);
}

export function endDrag() {
  state.held?.row?.classList.remove("over");
  state.held = null;
  $("veil").hidden = true;
  $("ghost").hidden = true;
  $("frame").hidden = true;
}

// The click that ends a drag is no click.
function swallowClick() {
  const stop = (event) => event.stopPropagation();
  addEventListener("click", stop, { capture: true, once: true });
  setTimeout(() => removeEventListener("click", stop, { capture: true }), 0);
}

// ---- Clicks

function onClick(event) {
  const isMore = event.ctrlKey || event.metaKey || event.shiftKey;
  const target = isMore ? beneath(event) : event.target;
  const stand = Number(target.closest(".row")?.dataset.stand ?? NaN);
  if (address.isWall) return undefined;
  if (target.closest(".spot") !== null) return putOn(stand);
  const part = partAt(target);
  if (part !== null && partOf(part) !== undefined) return onPart(event, part, target);
  if (!Number.isNaN(stand)) setCursor(stand, null);
  return drop();
}

// The bar below the place where the first picked part would stand; or what was pressed.
const beneath = (event) => document.elementsFromPoint(event.clientX, event.clientY).find((it) => it.matches(".bar")) ?? event.target;

function onPart(event, part, target) {
  const { stand } = partOf(part);
  if (stand !== null) setCursor(placeOf(stand), part);
  if (event.detail === 2) return menuOf(part, target.getBoundingClientRect());
  if (event.shiftKey && isPicking()) return pickAll(keysBetween(target, part));
  return event.ctrlKey || event.metaKey ? pickMore(part) : pick(part);
}

// With Shift: what is between the last picked part and this one, in the list or in the row.
function keysBetween(target, part) {
  const key = keyOf(part.visit, part.part);
  const list = target.closest("#waitlist, .track");
  const last = pickedParts().map((it) => keyOf(it.visit, it.part)).at(-1);
  const began = (it) => Number(it.dataset.from ?? 0);
  const keys = [...list.querySelectorAll(".wait, .bar")].sort((one, other) => began(one) - began(other)).map((it) => it.dataset.key);
  const [from, to] = [keys.indexOf(last), keys.indexOf(key)].sort((one, other) => one - other);
  return from < 0 ? [key] : keys.slice(from, to + 1);
}

function onContext(event) {
  const part = partAt(event.target) ?? partAt(beneath(event));
  if (part === null || address.isWall) return;
  event.preventDefault();
  menuOf(part, (barOf(part) ?? event.target).getBoundingClientRect());
}

function onWheel(event) {
  const onRuler = event.target.closest("#ruler") !== null;
  if (!event.ctrlKey && !onRuler) return;
  event.preventDefault();
  const share = Math.min(Math.max((axis.minuteAt(event.clientX) - axis.start()) / (axis.hours() * 60), 0), 1);
  const wanted = axis.hours() * (event.deltaY > 0 ? 1.2 : 1 / 1.2);
  axis.setHours(event.deltaY > 0 ? Math.ceil(wanted) : Math.floor(wanted), share);
}

export function listenToMouse() {
  for (const place of [$("chart"), $("waiting"), $("passed")]) {
    place.addEventListener("pointerdown", onDown);
    place.addEventListener("click", onClick);
    place.addEventListener("contextmenu", onContext);
  }
  $("chart").addEventListener("wheel", onWheel, { passive: false });
  $("chart").addEventListener("pointerleave", () => restOn(null));
  addEventListener("pointermove", onMove);
  addEventListener("pointerup", onUp);
  addEventListener("pointercancel", endDrag);
  setInterval(scrollDragged, 60);
}
