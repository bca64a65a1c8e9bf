// The menu of a part, or of several that are picked.

import { actsOn } from "./acts.js";
import { $, el, placeNear } from "./dom.js";
import { pickedParts } from "./pick.js";
import { howOf, partName, partOf, visitOf } from "./plan.js";
import { address } from "./settings.js";
import { isLive } from "./visits.js";
import { isClosurePart } from "./shiftwork.js";

const state = { acts: [] };

export const isMenuOpen = () => !$("menu").hidden;

// What can be done with a part: whether it can, its words, its key, and the act.
function itemsOf(part) {
  const visit = visitOf(part.visit);
  const it = partOf(part);
  const live = isLive(visit);
  const how = howOf(visit, part.part);
  if (isClosurePart(part)) return [[visit.state === "expected", "Open the stand again …", "Z", "open"]];
  return [
    [live && !it.actual, "Pick, to move it", "Space", "pick"],
    [live && !it.actual && it.stand !== null, "Back to the list", "L", "lift"],
    [live, "New times …", "M", "times"],
    [live && visit.parts.length < 3, "Split …", "X", "cut"],
    [live && part.part < visit.parts.length, "Merge with the next part", "J", "join"],
    [live, it.actual ? "Correct on block …" : "On block …", "O", "on"],
    [how === "onblock" || how === "overdue" || (live && !it.actual), "Off block …", "F", "off"],
    [visit.state === "expected", "Cancel the visit …", "Del", "cancel"],
    [true, "What is known of it", "I", "card"],
  ];
}

const SEVERAL = [[true, "Back to the list", "L", "liftall"], [true, "Let go", "Esc", "drop"]];

export function menuOf(part, rect) {
  if (address.isWall) return;
  const picked = pickedParts();
  const isSeveral = picked.length > 1 && picked.some((it) => it.visit === part.visit && it.part === part.part);
  const items = isSeveral ? [[picked.length === 2, "Change places", "", "swap"], ...SEVERAL] : itemsOf(part);
  const menu = $("menu");
  state.acts = actsOn(part);
  menu.replaceChildren(el("h3", {}, isSeveral ? `${picked.length} parts` : partName(part)), ...items.filter(([is]) => is).map(([, words, key, act]) =>
    el("button", { type: "button", role: "menuitem", tabindex: "-1", "data-act": act }, words, el("kbd", {}, key))));
  menu.hidden = false;
  placeNear(menu, rect);
  (menu.querySelector("button") ?? menu).focus();
}

export function hideMenu() {
  $("menu").hidden = true;
}

export function listenToMenu() {
  $("menu").addEventListener("click", (event) => {
    const act = event.target.closest("[data-act]")?.dataset.act;
    if (act === undefined) return;
    hideMenu();
    state.acts[act]();
  });
  $("menu").addEventListener("keydown", onMenuKey);
}

function onMenuKey(event) {
  const items = [...$("menu").querySelectorAll("button")];
  const place = items.indexOf(document.activeElement);
  const by = { ArrowDown: 1, ArrowUp: -1 }[event.key];
  if (by !== undefined) items[(place + by + items.length) % items.length]?.focus();
  else if (event.key === "Escape" || event.key === "Tab") {
    hideMenu();
    $("chart").focus();
  } else if (event.key === "Enter" || event.key === " ") return event.stopPropagation();
  else return undefined;
  event.preventDefault();
  return event.stopPropagation();
}
