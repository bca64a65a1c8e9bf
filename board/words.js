// What the page says of edits, refusals and stands, in a controller's words.

import { editOf } from "./draft.js";
import { firstPicked, pickedParts } from "./pick.js";
import { partName, standOf, typeOf, visitName, visitOf } from "./plan.js";
import { letterOf } from "./rules.js";
import { clock, when } from "./times.js";
import { flightOf } from "./visits.js";

export const RULES = {
  same: "both on one stand",
  split: "one on a stand, the other on a half of it",
  clearance: "wing tips nearer to each other than the clearance",
  pair: "the two stands are restricted for such aircraft",
};
const SHORT_RULES = { same: "same stand", split: "half of the stand", clearance: "wing tips too near", pair: "restricted pair" };

const shortRule = (rule) => SHORT_RULES[rule] ?? rule;

export const clashWords = ({ a, b, minute, rule }) =>
  `${partName(a)} and ${partName(b)} would exclude each other from ${when(minute)} UTC: ${RULES[rule] ?? rule}.`;

export function editWords(edit) {
  const { kind, said } = editOf(edit);
  const part = partName(said);
  if (kind === "put") return `${part}: put on ${said.stand}`;
  if (kind === "lift") return `${part}: back to the list`;
  return kind === "cut" ? `${part}: split at ${when(said.at)}` : `${part}: merge with the next part`;
}

// The words of an edit that is kept, also where its visit is not read: then by the name that was kept with it.
export const keptWords = (kept) => {
  const { said } = editOf(kept.edit);
  const words = editWords(kept.edit);
  return visitOf(said.visit) === undefined ? words.replace(partName(said), `${kept.name} (${kept.type})`) : words;
};

function unfitWords(by) {
  if (by === "letter") return "the aircraft's code letter is greater than the stand's";
  return `object ${by.object} of the frontage is nearer to a wing tip than the clearance`;
}

const PLAIN = {
  unknown: "there is no such visit",
  part: "the visit has no such part",
  gone: "the visit has left or is cancelled",
  onblock: "the aircraft is on block",
  cut: "a piece would be shorter than the type's least time, or the visit has three parts already",
  join: "no part comes after this one",
  type: "the airport has no type of that name",
  stand: "the airport has no stand of that name",
  times: "the visit does not lie in the plan, is too short for its type, or has a flight of another day",
  time: "the minute is outside the plan, or too early",
  name: "another visit has this name",
  json: "the server could not read it",
  full: "the plan has no place for more",
  large: "the request is too large",
};

// Why the server refused something.
export function refusalWords(refusal) {
  const { error, by, edited, fault, visit, at } = refusal;
  if (error === "clash") return clashWords(refusal);
  if (error === "unfit") return `${unfitWords(by)}.`;
  if (error === "overtaken") {
    return `${visitName(visit)} was changed by ${by ?? "another client"} in version ${edited}, after the picture that this draft was made over.`;
  }
  if (error === "mvt") return fault === "identifier" ? "no line is MVT." : `the message has a fault: ${fault}${at === undefined ? "" : ` at byte ${at}`}.`;
  if (error === "ahead") return "the server's plan is older than the one that is shown.";
  return `${PLAIN[error] ?? error ?? "the request was refused"}.`;
}

// Why a stand is shut to the picked part, in few words.
export function offWords(off, stand) {
  const { visit: picked } = firstPicked();
  if (off.by === "letter") return `letter ${letterOf(typeOf(visitOf(picked)).span)} on ${standOf(stand).letter}`;
  if (off.by) return `object ${off.by.object}`;
  const { a, b, minute, rule } = off.clash;
  const other = a.visit === picked ? b : a;
  const it = visitOf(other.visit);
  const where = it.parts[other.part - 1].stand;
  const what = { same: "", split: `half ${where} `, clearance: `wing tips ${where} `, pair: `pair ${where} ` }[rule];
  return `${what}${flightOf(it)} ${clock(minute)}`;
}

// What shuts a stand out though nobody is on it.
export function shadowWords({ visit, on, rule, whole, letter }) {
  const it = visitOf(visit);
  const who = it === undefined ? "" : ` ${flightOf(it)}`;
  if (rule === "split") return `${standOf(on).name}${who}`;
  return `${whole ? "shut" : `no ${letter}`}: ${standOf(on).name}${who}`;
}

export const bumpWords = ({ blocker, minute, rule, stand }) => `lost ${stand}: ${partName(blocker)} from ${when(minute)}, ${shortRule(rule)}`;

// Those who would lose their stands.
export const bumpedWords = (bumped) => bumped.map((it) =>
  `${partName(it)} would lose ${it.stand} (from ${when(it.minute)}, ${shortRule(it.rule)}, to ${partName(it.blocker)})`);

export const pickedWords = () => (pickedParts().length === 1 ? partName(firstPicked()) : `${pickedParts().length} parts`);
export const metres = (cm) => `${(cm / 100).toFixed(2)} m`;
