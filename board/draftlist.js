// The draft on the side: its edits, what is thought of them, and its buttons.

import * as drafting from "./drafting.js";
import { deskName } from "./desk.js";
import { $, el, fillKeyed } from "./dom.js";
import * as picture from "./model.js";
import { nextWords } from "./opening.js";
import { visitName } from "./plan.js";
import { refusedWords } from "./refusal.js";
import { address } from "./settings.js";
import { keptWords, refusalWords } from "./words.js";

const NONE = "No changes. Drag a bar or an unallocated part to a stand, or pick it with Space.";

// The draft is drawn as one item, which changes only where its words do.
export function drawDraft() {
  if (address.isWall || picture.model() === null) return;
  const lines = drafting.keptEdits().map(keptWords);
  const said = draftWords();
  const buttons = draftButtons();
  const sign = JSON.stringify([deskName(), lines, said, buttons]);
  fillKeyed($("draft"), [{ key: "draft", sign, make: () => draftElement(lines, said, buttons) }]);
}

function draftElement(lines, said, buttons) {
  const head = el("h2", {}, "Draft ", el("b", {}, String(lines.length)), el("small", {}, deskName()));
  const list = drafting.isEmpty() ? [] : [el("ol", {}, ...lines.map((line) => el("li", {}, line)))];
  return el("div", {}, head, ...list, ...said.map(paragraph), el("div", { class: "buttons" }, ...buttons.map(({ id, words, act, title, locked }) =>
    el("button", { type: "button", id, "data-do": act, title, disabled: locked }, words))));
}

const paragraph = ([className, words]) => el("p", { class: className }, words);

function draftWords() {
  const dropped = drafting.droppedEdits().map(({ kept, error }) => ["bad", `Dropped: ${keptWords(kept)}: ${refusalWords({ error })}`]);
  if (drafting.isEmpty()) return [["dim", nextWords() ?? NONE], ...dropped];
  if (drafting.pendingDraft() !== null) return [pendingWords()];
  if (drafting.refusedDraft() !== null) return [["bad", refusedWords()], ...dropped];
  const late = drafting.overtaken();
  if (late !== null) return [["bad", `Overtaken: ${visitName(late.visit)} was changed by another client in version ${late.edited}.`]];
  return [...dropped, verdictWords()];
}

function pendingWords() {
  const trouble = drafting.unanswered();
  if (trouble === null) return ["", "On its way …"];
  return ["bad", `No reply came: ${trouble.words} The draft is asked for again until its reply is there, and is taken once.`];
}

function verdictWords() {
  const verdict = drafting.verdict();
  if (verdict.is === "waits") {
    const days = verdict.days.length > 0 ? `day ${verdict.days.join(", ")} of the plan is read` : "its visits are read";
    return ["", `Not judged yet: ${days}.`];
  }
  if (verdict.is === "refused") return ["bad", `Would be refused: ${refusalWords(verdict.refusal)}`];
  return ["good", `✓ Fits, over version ${drafting.draftBase()}.`];
}

function draftButtons() {
  if (drafting.isEmpty()) return emptyButtons();
  const locked = drafting.pendingDraft() !== null;
  const isLate = drafting.overtaken() !== null || ["overtaken", "ahead"].includes(drafting.refusedDraft()?.error);
  return [
    ...(isLate && !locked ? [{ id: "again", words: "Look again", act: "again", title: "G", locked: false }] : []),
    { id: "send", words: "Publish", act: "publish", title: "Ctrl+Enter", locked },
    { id: "undo", words: "Undo", act: "undo", title: "U", locked },
    { id: "drop", words: "Drop all", act: "drop", title: null, locked },
  ];
}

function emptyButtons() {
  const file = { id: "openfile", words: "Open a planner's file …", act: "open", title: null, locked: false };
  if (nextWords() === null) return [file];
  return [
    { id: "opennext", words: "Open it", act: "opennext", title: null, locked: false },
    { id: "forgetfile", words: "Forget the file", act: "forgetfile", title: null, locked: false },
  ];
}
