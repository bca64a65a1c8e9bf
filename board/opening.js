// Opens a file of drafts that a planner wrote: one draft after the other becomes that of this client, which a person looks at and publishes.

import { keptOf } from "./draft.js";
import * as drafting from "./drafting.js";
import { show } from "./dialogs.js";
import { $, el, say } from "./dom.js";
import { look } from "./follow.js";
import { isAnswer } from "./forms.js";
import * as picture from "./model.js";
import { ask } from "./net.js";
import { readPlanFile } from "./planfile.js";
import { redraw } from "./redraw.js";
import { keep, read } from "./store.js";

// What is left of the file: {name, base, drafts, at}; null without one. A reload keeps it.
const state = { file: read(sessionStorage, "planfile", null) };

function keepFile(file) {
  state.file = file;
  keep(sessionStorage, "planfile", file);
  redraw();
}

export const forgetFile = () => keepFile(null);

// What comes next of the file, in words; or null.
export function nextWords() {
  if (state.file === null) return null;
  const { name, drafts, at } = state.file;
  return `Next of ${name}: draft ${at + 1} of ${drafts.length}, with ${drafts[at].length} changes.`;
}

export function listenToFile() {
  $("planfile").addEventListener("change", async () => {
    const [file] = $("planfile").files;
    if (file === undefined) return;
    const found = readPlanFile(await file.text(), picture.model(), picture.version());
    $("planfile").value = "";
    if (found.fault !== undefined) return show(`${file.name} can't be opened`, el("p", {}, found.fault));
    keepFile({ name: file.name, ...found, at: 0 });
    return openNext();
  });
}

export const chooseFile = () => $("planfile").click();

// Opens the file's next draft. Its visits that are not in sight are read before.
export async function openNext() {
  if (!drafting.isEmpty()) return say("Publish your draft or drop it first.");
  const { name, base, drafts, at } = state.file;
  for (const number of new Set(drafts[at].map((edit) => Object.values(edit)[0].visit))) {
    const refused = picture.visits().has(number) ? null : await readVisit(number);
    if (refused !== null) return show(`${name} can't be opened`, el("p", {}, refused));
  }
  drafting.openDraft(drafts[at].map((edit) => keptOf(picture.model(), picture.visits(), edit)), base);
  keepFile(at + 1 < drafts.length ? { ...state.file, at: at + 1 } : null);
  say(`${name}: draft ${at + 1} of ${drafts.length}. Look at it, and publish it.`);
  return look();
}

async function readVisit(number) {
  const outcome = await ask("GET", `visits/${number}`);
  if (outcome.is === "ok") picture.addVisit(outcome.body);
  return outcome.is === "ok" ? null : isAnswer(outcome) ? `The plan has no visit ${number}: the file is of another plan.` : outcome.words;
}

// Takes note of a draft that is in the plan. Where nobody came between, what follows in the file is made over that version, so that its drafts
// may edit one visit after the other.
export function draftTaken(version) {
  if (state.file !== null && version === state.file.base + 1) keepFile({ ...state.file, base: version });
}
