// A refusal at its bar, and the way to a part: where it is in the chart or in a list.

import * as axis from "./axis.js";
import * as drafting from "./drafting.js";
import { barOf, clearFilter, drawChart, placeOfRow, revealRow } from "./chart.js";
import { $, button, el, placeNear, say } from "./dom.js";
import { editOf } from "./draft.js";
import { look } from "./follow.js";
import { setCursor } from "./pick.js";
import { keyOf, partOf, placeOf } from "./plan.js";
import { editWords, refusalWords } from "./words.js";

// Shows a part: in the chart, or in the list of those that wait.
export function goTo({ visit, part }) {
  const it = partOf({ visit, part });
  if (it === undefined) return;
  axis.reveal(it.from, it.to);
  if (it.stand === null) {
    drawChart();
    requestAnimationFrame(() => document.querySelector(`.wait[data-key="${keyOf(visit, part)}"]`)?.focus());
    return;
  }
  const stand = placeOf(it.stand);
  if (placeOfRow(stand) === undefined) clearFilter();
  setCursor(stand, { visit, part });
  drawChart();
  revealRow(stand);
  drawChart();
  $("chart").focus({ preventScroll: true });
}

export function goToStand(stand) {
  if (placeOfRow(stand) === undefined) clearFilter();
  setCursor(stand, null);
  drawChart();
  revealRow(stand);
  $("chart").focus({ preventScroll: true });
}

export function showRefusal(part, words) {
  goTo(part);
  const bubble = $("bubble");
  const isLate = drafting.refusedDraft()?.error === "overtaken";
  bubble.replaceChildren(el("p", {}, words), el("div", { class: "buttons" },
    isLate ? button("Look again", lookAgain) : null, button("Close", hideBubble)));
  bubble.hidden = false;
  const anchor = barOf(part) ?? document.querySelector(`.wait[data-key="${keyOf(part.visit, part.part)}"]`) ?? $("draft");
  placeNear(bubble, anchor.getBoundingClientRect());
}

export function hideBubble() {
  $("bubble").hidden = true;
}

// Tells why the server refused the draft, at the bar that it is about.
export function tellRefused() {
  const refused = drafting.refusedDraft();
  if (refused === null || drafting.keptEdits().length === 0) return;
  const place = Math.max(0, drafting.blamedPlace(refused));
  showRefusal(editOf(drafting.edits()[place]).said, refusedWords());
}

export function refusedWords() {
  const refused = drafting.refusedDraft();
  const place = drafting.blamedPlace(refused);
  const edit = drafting.edits()[place];
  return `Refused: ${edit === undefined ? "" : `edit ${place + 1}, ${editWords(edit)}. `}${refusalWords(refused)}`;
}

// Takes the newest plan as what the draft is made over.
export async function lookAgain() {
  hideBubble();
  await look();
  drafting.lookAgain();
  const dropped = drafting.droppedEdits().length;
  const without = dropped === 0 ? "" : `, without ${dropped} that are no longer possible`;
  say(`The draft is now made over the plan as it is${without}.`);
}
