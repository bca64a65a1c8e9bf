// Work of a shift that takes several steps: a stand is closed and opened, what waits is proposed, and the events are read through.

import * as axis from "./axis.js";
import { closing, closureTypes, isClosure, opening } from "./closures.js";
import { addEdits } from "./moves.js";
import { addEdits as drafted } from "./drafting.js";
import * as drafting from "./drafting.js";
import { deskName, nextDraft } from "./desk.js";
import { converse, show } from "./dialogs.js";
import { $, button, el, say } from "./dom.js";
import { alarmsIn, allEvents, markSeen, seenWords, unseen } from "./events.js";
import * as picture from "./model.js";
import { post } from "./net.js";
import { outcome } from "./outcome.js";
import { keyOf, partName, standOf, visitOf, visits } from "./plan.js";
import { leftWords, proposalOf } from "./proposal.js";
import { redraw } from "./redraw.js";
import { DAY } from "./rules.js";
import { settings } from "./settings.js";
import { NO_TIME, TIME_HINT, minuteOf, nowMinute, typed, when } from "./times.js";
import { refusalWords } from "./words.js";

// ---- Closures

// Closes a stand for some minutes: a visit of its own, of priority 0, is added and put on the stand.
export function closeStand(stand) {
  const now = nowMinute();
  const { name } = standOf(stand ?? 0);
  const narrow = closureTypes(picture.model());
  converse("Close a stand", [
    { name: "stand", words: "Stand", value: stand === null ? "" : name, options: picture.model().stands.map((it) => it.name), free: true },
    { name: "from", words: "From", value: typed(now), hint: TIME_HINT },
    { name: "minutes", words: "Minutes", value: "60", hint: `${narrow[0]?.least ?? 1} at least` },
  ], (said, tell) => {
    const wanted = closureWanted(said, now);
    return typeof wanted === "string" ? wanted : close(wanted, tell, 0);
  }, { words: "Close the stand", check: (said) => closurePreview(closureWanted(said, now)) });
}

function closureWanted(said, now) {
  const stand = said.stand.toUpperCase();
  if (!picture.model().standOf.has(stand)) return "There is no such stand.";
  const from = minuteOf(said.from, now);
  const minutes = Number(said.minutes);
  if (from === null) return NO_TIME;
  if (!Number.isInteger(minutes) || minutes < 1) return "The minutes are a whole number.";
  const type = picture.model().typeOf.has(settings.closer) ? settings.closer : closureTypes(picture.model(), picture.model().standOf.get(stand))[0]?.name;
  return { stand, from, to: from + minutes, type };
}

function closurePreview(wanted) {
  if (typeof wanted === "string") return { lines: [wanted], asks: false };
  const made = closing(picture.model(), picture.visits(), wanted);
  if (made.refused) return { lines: [made.refused], asks: false };
  const lines = made.inTheWay.map((it) => `${partName(it)} loses its stand, from ${when(it.minute)}.`);
  return { lines, asks: made.inTheWay.length > 0 };
}

async function close(wanted, tell, tried) {
  const made = closing(picture.model(), picture.visits(), { ...wanted, tried });
  if (made.refused) return made.refused;
  let number = null;
  const added = await outcome("visit", () => post("visits", made.visit), tell, (body) => { number = body.visit ?? null; });
  if (added !== null) return added.startsWith("another visit has this name") && tried < 20 ? close(wanted, tell, tried + 1) : added;
  const commit = { desk: deskName(), draft: nextDraft(), base: picture.version(), edits: made.edits(number) };
  const put = await outcome("commit", () => post("commits", commit), tell);
  if (put === null) return null;
  await outcome("cancel", () => post("cancels", { visit: number }), tell);
  return `The stand is not closed: ${put}`;
}

// Opens a stand again: its closure is cancelled.
export function openStand({ visit }) {
  const made = opening(visitOf(visit));
  if (made.refused) return say(made.refused);
  return converse(`Open ${visitOf(visit).parts[0].stand ?? "the stand"} again?`, [],
    (_, tell) => outcome("cancel", () => post("cancels", made.cancel), tell), { words: "Open the stand" });
}

export const isClosurePart = ({ visit }) => isClosure(visitOf(visit));

// ---- A proposal

// Puts a first-fit draft of what waits on the days in sight into the draft, and lists why others are left.
export function propose() {
  const days = axis.daysInSight();
  if (days.length === 0) return;
  const now = nowMinute();
  const [begin, end] = [Math.max((days[0] - 1) * DAY, now), days.at(-1) * DAY];
  const found = proposalOf(picture.model(), picture.visits(), { begin, end, edits: drafting.edits(), now });
  const refusal = found.edits.length === 0 ? null : drafted(found.edits);
  const lines = found.left.map((left) => el("li", {}, el("b", {}, partName(left)), leftWords(picture.model(), left, { name: partName, when })));
  const over = found.over.length === 0 ? [] : [el("p", {}, `${found.over.length} more have no room in one draft: publish it, and propose again.`)];
  const words = refusal !== null ? `The proposal is not possible: ${refusalWords(refusal)}`
    : found.edits.length === 0 ? "Nothing that waits in sight fits a stand."
      : `${found.edits.length} parts are put where they fit, in your draft. Look at it, and publish it.`;
  const left = [el("h3", {}, "Left without a stand"), el("ol", { class: "reading", id: "leftlist" }, ...lines)];
  show("Proposal", el("p", {}, words), ...over, ...(lines.length === 0 ? [] : left));
}

// ---- Events

export function showEvents() {
  const { now } = allEvents();
  const days = axis.daysInSight();
  const [begin, end] = days.length === 0 ? [0, 0] : [(days[0] - 1) * DAY, days.at(-1) * DAY];
  const passed = alarmsIn(begin, end).filter(({ isPast }) => isPast);
  const line = (it) => el("li", { class: "event", "data-event": it.id },
    el("button", { type: "button", class: "line", "data-goto": keyOf(it.part.visit, it.part.part) }, it.words()),
    el("small", {}, it.isPast ? "past" : seenWords(it.id)));
  show("Events", el("h3", {}, `To deal with (${now.length})`), el("ol", { class: "reading" }, ...now.map(line)),
    el("h3", {}, `Alarms of these days that have passed (${passed.length})`), el("ol", { class: "reading", id: "passedalarms" }, ...passed.map(line)));
  if (unseen().length > 0) $("dialog").querySelector(".buttons").prepend(button("Seen, all of them", () => { seeAll(); $("dialog").close(); }));
}

export function seeFirst() {
  const [first] = unseen();
  if (first !== undefined) markSeen([first.id]);
  redraw();
}

function seeAll() {
  markSeen(unseen().map(({ id }) => id));
  redraw();
}

// Puts the part of a warning on a stand that would fix it, in the draft.
export const mend = (part, stand) => addEdits([{ put: { ...part, stand } }]);
