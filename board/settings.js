// What the user and the address of the page choose.

import { keep, read } from "./store.js";

const query = new URLSearchParams(location.search);

// The address of the page: a frozen minute, a day and hours to open, the wall, and frontages.
export const address = {
  now: query.get("now"),
  day: query.get("day"),
  hours: query.get("hours"),
  isWall: query.has("wall"),
  frontages: (query.get("frontage") ?? "").toUpperCase().split(/[\s,]+/).filter((name) => name !== ""),
};

const FIRST = {
  name: "DESK", zone: "", theme: "auto", rows: "normal", sound: "on", back: "5", shadows: "on", soon: "30", closer: "",
};

// The settings as they are now; changeSettings alone changes them.
export const settings = { ...FIRST, ...read(localStorage, "settings", {}) };

export function changeSettings(changed) {
  Object.assign(settings, changed);
  keep(localStorage, "settings", settings);
}

// How many minutes before the need a warning comes.
export const soonMinutes = () => Number(settings.soon) || 30;
