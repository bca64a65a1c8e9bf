// The warnings before an alarm: the list "Soon", by minute, with the stands that would fix each.

import { $, el, fillKeyed, setText } from "./dom.js";
import * as picture from "./model.js";
import { keyOf, partName, standOf } from "./plan.js";
import { address, soonMinutes } from "./settings.js";
import { soonOf, soonWords } from "./soon.js";
import { isInPlan, nowMinute, when } from "./times.js";

const RED = 10;
const FITS = 4;
const SHOWN = 30;

const state = { warnings: [] };

export const warnings = () => state.warnings;

// Works the warnings out again, from the picture and the present minute.
export function findWarnings() {
  const now = nowMinute();
  if (!picture.hasPicture() || !isInPlan(now)) state.warnings = [];
  else state.warnings = soonOf(picture.model(), picture.visits(), now, { within: soonMinutes(), red: RED });
}

const name = (part) => partName(part);
const stand = (place) => standOf(place).name;

export function drawWarnings() {
  const counted = state.warnings.filter(({ level }) => level !== "watch").length;
  setText($("sooncount"), String(counted));
  $("soon").classList.toggle("red", state.warnings.some(({ level }) => level === "red"));
  fillKeyed($("soonlist"), state.warnings.slice(0, SHOWN).map((it) => {
    const words = soonWords(it, { name, stand, when });
    const fits = it.fits.slice(0, FITS);
    return {
      key: it.key, sign: `${it.level}|${it.left}|${words}|${fits}`,
      make: () => el("li", { class: `soon ${it.level}`, "data-minute": it.minute, "data-level": it.level },
        el("time", {}, it.left > 0 ? `${it.left}′` : "now"),
        el("button", { type: "button", class: "line", tabindex: "-1", "data-goto": keyOf(it.visit, it.part) }, words),
        fitsOf(it, fits)),
    };
  }));
}

// The stands that would fix it; a press of one puts the part there, in the draft.
function fitsOf(it, fits) {
  if (address.isWall) return fits.length === 0 ? null : el("small", {}, `fits ${fits.map(stand).join(", ")}`);
  const part = keyOf(it.visit, it.part);
  const title = "Put it there, in the draft";
  const buttons = fits.map(stand).map((place) =>
    el("button", { type: "button", class: "fit", "data-part": part, "data-stand": place, tabindex: "-1", title }, place));
  return el("span", { class: "fits" }, ...(buttons.length === 0 ? [el("small", {}, "no stand fits")] : buttons));
}
