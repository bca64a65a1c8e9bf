// The settings, as a dialogue asks for them.

import { closureTypes } from "./closures.js";
import { deskName, newDesk } from "./desk.js";
import { converse } from "./dialogs.js";
import * as drafting from "./drafting.js";
import * as picture from "./model.js";
import { redraw } from "./redraw.js";
import { changeSettings, settings } from "./settings.js";

export function changeSettingsDialog() {
  const types = picture.model() === null ? [] : closureTypes(picture.model()).map((type) => type.name);
  converse("Settings", [
    { name: "name", words: "Your name", value: settings.name, hint: "1 to 5 of A-Z 0-9: the client's name is this and six letters" },
    { name: "zone", words: "Local time", value: settings.zone, options: Intl.supportedValuesOf("timeZone"), free: true, hint: "an IANA zone, or empty" },
    { name: "theme", words: "Light", value: settings.theme, options: ["auto", "day", "night"] },
    { name: "rows", words: "Rows", value: settings.rows, options: ["dense", "normal", "tall"] },
    { name: "back", words: "Follow again", value: settings.back, hint: "after so many minutes without a hand; 0 never" },
    { name: "soon", words: "Warn before", value: settings.soon, hint: "minutes before a stand or a part is needed" },
    { name: "sound", words: "Sound", value: settings.sound, options: ["on", "off"] },
    { name: "shadows", words: "Shadows", value: settings.shadows, options: ["on", "off"], hint: "of halves, wide wings and pairs" },
    { name: "closer", words: "Closures are", value: settings.closer, options: ["", ...types], hint: "of this type; empty: of the narrowest that fits" },
  ], keepSettings, { words: "Keep" });
}

async function keepSettings(said) {
  const name = said.name.toUpperCase();
  if (!/^[A-Z0-9]{1,5}$/.test(name)) return "The name has 1 to 5 capitals or digits.";
  if (!/^\d{1,3}$/.test(said.back) || !/^\d{1,3}$/.test(said.soon)) return "Minutes are whole numbers up to 999.";
  try {
    new Intl.DateTimeFormat("en-GB", { timeZone: said.zone || undefined });
  } catch {
    return "There is no such zone.";
  }
  const isRenamed = name !== settings.name;
  if (isRenamed && drafting.pendingDraft() !== null) return "A draft is on its way under the old name: wait for its reply.";
  changeSettings({ ...said, name });
  applySettings();
  if (!isRenamed) return null;
  const before = deskName();
  await newDesk(name);
  drafting.movedFrom(before);
  redraw();
  return null;
}

export function applySettings() {
  document.documentElement.dataset.theme = settings.theme;
  redraw();
}
