// A file of drafts that a planner wrote (docs/guide/planner.md, The file of a draft): whether it is of this plan, and its drafts.

import { MOST_EDITS } from "./draft.js";
import { formFault } from "./forms.js";

/**
 * @typedef {import("./rules.js").Model} Model
 * @typedef {import("./visits.js").Edit} Edit
 */

/**
 * The drafts of a file in their order, and the base of the first one; or why it can't be opened over the plan of this version.
 * @param {string} text @param {Model} model @param {number} version
 * @returns {{base: number, drafts: Edit[][]} | {fault: string}}
 */
export function readPlanFile(text, model, version) {
  let body;
  try {
    body = JSON.parse(text);
  } catch {
    return { fault: "It is no file of a draft: it is not JSON." };
  }
  const fault = formFault("planfile", body);
  if (fault !== null) return { fault: `It is no file of a draft: ${fault}.` };
  const { station, first_day: first, base, drafts, edits } = body;
  if (station !== model.station || first !== model.first_day) {
    return { fault: `It is of the plan of ${station} from ${first}, and this is the plan of ${model.station} from ${model.first_day}.` };
  }
  if (base > version) return { fault: `It was made over version ${base}, and this plan is at version ${version}: it is of another plan.` };
  if (drafts.reduce((sum, count) => sum + count, 0) !== edits.length || drafts.some((count) => count > MOST_EDITS)) {
    return { fault: "It is no file of a draft: its drafts do not have its edits." };
  }
  const stray = edits.map((edit) => edit.put?.stand).find((stand) => stand !== undefined && !model.standOf.has(stand));
  if (stray !== undefined) return { fault: `The airport has no stand ${stray}.` };
  let begin = 0;
  return { base, drafts: drafts.map((count) => edits.slice(begin, begin += count)) };
}
