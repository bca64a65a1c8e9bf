// What a person does to the plan by a draft: parts are put on stands, deallocated, swapped, split and merged, one or several at once.

import * as drafting from "./drafting.js";
import { askYes, converse } from "./dialogs.js";
import { say } from "./dom.js";
import * as picture from "./model.js";
import { drop, isPicking, pickedParts } from "./pick.js";
import { index, partName, partOf, placeOf, standOf, typeOf, visitOf, visits } from "./plan.js";
import { showRefusal } from "./refusal.js";
import { address } from "./settings.js";
import { standingIn } from "./soon.js";
import { NO_TIME, TIME_HINT, minuteOf, nowMinute, typed } from "./times.js";
import { visitsAfter } from "./visits.js";
import { editWords, refusalWords } from "./words.js";

const LIMITS = { pending: "A draft is on its way: wait for its reply.", edits: "A draft has at most 64 edits." };

// Adds edits to the draft, all or none.
export function addEdits(edits) {
  if (address.isWall || edits.length === 0) return;
  const before = drafting.keptEdits().length;
  const refusal = drafting.addEdits(edits);
  if (refusal === null) {
    drop();
    say(edits.length === 1 ? editWords(edits[0]) : `${edits.length} changes are in the draft.`);
  } else if (LIMITS[refusal.error]) say(LIMITS[refusal.error]);
  else {
    const edit = edits[refusal.edit - 1 - before];
    showRefusal(Object.values(edit)[0], `${editWords(edit)} is not possible: ${refusalWords(refusal)}`);
  }
}

// Puts what is picked on a stand: several parts go to the stands from this one on, those of one stand together.
export async function putOn(stand) {
  if (!isPicking()) return;
  const targets = targetsFrom(stand, pickedParts());
  const moved = targets.filter(({ part, place }) => partOf(part).stand !== standOf(place).name);
  if (moved.length === 0) return drop();
  if (!(await isAgreed(moved))) return undefined;
  return addEdits(moved.map(({ part, place }) => ({ put: { ...part, stand: standOf(place).name } })));
}

// Which stand each part goes to: the first stand for the parts of the first row, and so on down the airport's order; then those that wait.
function targetsFrom(stand, parts) {
  const rows = [...new Set(parts.map((part) => partOf(part).stand).filter((name) => name !== null).map(placeOf))].sort((one, other) => one - other);
  const last = picture.model().stands.length - 1;
  let free = stand + rows.length;
  return parts.map((part) => {
    const { stand: name } = partOf(part);
    const place = name === null ? free++ : stand + rows.indexOf(placeOf(name));
    return { part, place: Math.min(place, last) };
  });
}

// Whether a person agrees where an aircraft that should have left still stands there: the plan takes it, the apron does not.
async function isAgreed(moved) {
  const lines = moved.flatMap(({ part, place }) => standing(part, place).map((by) => {
    const where = by.stand === place ? "there" : `on ${standOf(by.stand).name}`;
    return `${partName(by)} still stands ${where}, ${by.overdue} min after its expected end. `
      + `The plan would let ${partName(part)} be put on ${standOf(place).name}.`;
  }));
  return lines.length === 0 || askYes("The stand is not clear", lines, "Put it there anyway");
}

const standing = ({ visit, part }, place) => standingIn(picture.model(), index(), visits(), visitOf(visit), part, place, nowMinute());

export function lift(parts) {
  const there = parts.filter((part) => partOf(part)?.stand !== null);
  if (there.length === 0) drop();
  else addEdits(there.map((part) => ({ lift: { visit: part.visit, part: part.part } })));
}

// Two parts change places.
export function swap([one, other]) {
  const [here, there] = [partOf(one).stand, partOf(other).stand];
  if (here === null || there === null || here === there) return say("They have to be on two stands.");
  return addEdits([{ put: { ...one, stand: there } }, { put: { ...other, stand: here } }]);
}

export const join = (part) => addEdits([{ join: { visit: part.visit, part: part.part } }]);

export function undo() {
  const edit = drafting.undoEdit();
  if (edit !== null) say(`Undone. ${editWords(edit)}`);
}

export function dropAll() {
  drafting.dropDraft();
  say("The draft was dropped.");
}

export function cutPart({ visit, part }) {
  const it = partOf({ visit, part });
  const middle = Math.floor((it.from + it.to) / 2);
  const { least } = typeOf(visitOf(visit));
  const hint = `${TIME_HINT}; each piece lasts ${least} min at least, and ${picture.model().tow} min are for the tow`;
  converse(`Split ${partName({ visit, part })}`, [{ name: "at", words: "It ends at", value: typed(middle), hint }], (said) => {
    const at = minuteOf(said.at, middle);
    if (at === null) return NO_TIME;
    const edit = { cut: { visit, part, at } };
    const { refusal } = visitsAfter(picture.model(), visits(), [edit]);
    if (refusal !== null) return refusalWords(refusal);
    addEdits([edit]);
    return null;
  }, { words: "Split" });
}
