// The line at the bottom: the part or the stand at the cursor.

import { HOW } from "./bars.js";
import { deskName } from "./desk.js";
import { $, setText } from "./dom.js";
import { cursor, firstPicked, isPicking, pickedParts } from "./pick.js";
import { howOf, standOf, typeOf, visitOf } from "./plan.js";
import { letterOf } from "./rules.js";
import { address } from "./settings.js";
import { stay } from "./times.js";
import { bumpWords, metres } from "./words.js";

export function drawDetail() {
  const part = firstPicked() ?? cursor().part;
  const visit = part === null ? undefined : visitOf(part.visit);
  const it = visit?.parts[part.part - 1];
  setText($("detail"), it === undefined ? standWords() : partWords(visit, part.part, it));
  $("act").hidden = it === undefined || address.isWall;
}

function standWords() {
  if (cursor().stand === null) return address.isWall ? "" : `Client ${deskName()}`;
  const { name, frontage, letter, buffer, half_of: whole } = standOf(cursor().stand);
  return `${name}: frontage ${frontage}, letter ${letter}, buffer ${buffer} min${whole === null ? "" : `, a half of ${whole}`}`;
}

function partWords(visit, part, it) {
  const type = typeOf(visit);
  const flights = [visit.arr, visit.dep].map((flight) => flight?.flight ?? "–").join(" → ");
  const more = isPicking() && pickedParts().length > 1 ? `${pickedParts().length} picked · ` : "";
  const parts = visit.parts.length > 1 ? ` · part ${part} of ${visit.parts.length}` : "";
  const bump = it.bump === null ? "" : ` · ${bumpWords(it.bump)}`;
  return `${more}${visit.name} · ${flights} · ${visit.type} (${letterOf(type.span)}, ${metres(type.span)}) · priority ${visit.class} · `
    + `${it.stand ?? "no stand"} ${stay(it)} · ${HOW[howOf(visit, part)]}${parts}${bump}`;
}
