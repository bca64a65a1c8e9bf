// Drawn drafts: what the page's modules say of each is compared with the server's reply.

import assert from "node:assert/strict";
import { folded, judge, judgeDraft, keptOf, lookAgain, needsOf, sentOf, takenOf } from "../../draft.js";
import { firstClash, fitsOf, indexOf, slotsOf, unfitOf } from "../../rules.js";
import { isLive, partsAfter, visitsAfter } from "../../visits.js";
import { same, told } from "./world.mjs";

const DESKS = ["ORACLE", "OTHER"];

/** Edits of up to eight steps, over the draft so far. Most drafts are such as a person makes; in some an edit may be anything. */
function editsOf(world, draws) {
  const { model } = world;
  const plan = new Map(world.visits);
  const isWild = draws.chance(25);
  const fits = draws.chance(60);
  const numbers = [...plan.values()].filter((visit) => isWild || isLive(visit)).map(({ visit }) => visit);
  const edits = [];
  for (let left = draws.between(1, 8), tries = 40; left > 0 && tries > 0; tries--) {
    const again = edits.length > 0 && draws.chance(35);
    const number = isWild && draws.chance(3) ? plan.size + draws.between(1, 3) : again ? Object.values(draws.one(edits))[0].visit : draws.one(numbers);
    const edit = editOf(model, plan, draws, number, isWild, fits);
    const [[kind, said]] = Object.entries(edit);
    const after = plan.has(number) ? partsAfter(model, plan.get(number), kind, said) : { error: "unknown" };
    if (after.error === undefined) plan.set(number, { ...plan.get(number), parts: after.parts });
    if (after.error !== undefined && !isWild) continue;
    edits.push(edit);
    left -= 1;
  }
  return edits.length > 0 ? edits : [{ lift: { visit: plan.size + 1, part: 1 } }];
}

function editOf(model, plan, draws, number, isWild, fits) {
  const visit = plan.get(number);
  const part = isWild && draws.chance(10) ? draws.between(0, 4) : draws.between(1, visit?.parts.length ?? 1);
  const kind = draws.one(["put", "put", "put", "put", "put", "put", "put", "lift", "cut", "join"]);
  const it = visit?.parts[part - 1] ?? { from: 0, to: 0 };
  if (kind === "cut") return { cut: { visit: number, part, at: draws.between(Math.max(0, it.from - 5), it.to + 5) } };
  if (kind !== "put") return { [kind]: { visit: number, part } };
  return { put: { visit: number, part, stand: draws.one(standsFor(model, plan, draws, visit, part, isWild, fits)).name } };
}

// The stands that the part would fit, or those that its type fits, or any.
function standsFor(model, plan, draws, visit, part, isWild, fits) {
  if (visit?.parts[part - 1] === undefined || (isWild && draws.chance(15))) return model.stands;
  const type = model.typeOf.get(visit.type);
  const isFit = fits && draws.chance(95) ? fitsOf(model, indexOf(model, plan.values()), visit, part) : model.stands.map((_, stand) => unfitOf(model, stand, type));
  const free = model.stands.filter((_, stand) => isFit[stand] === null);
  return free.length === 0 ? model.stands : free;
}

/** One draft: judged, sent, and what then stands in the plan. */
export async function tryDraft(world, draws, number) {
  const { model, visits, version } = world;
  const edits = editsOf(world, draws);
  const base = draws.chance(15) ? Math.max(0, version - draws.between(1, 60)) : draws.chance(1) ? version + 1 : version;
  const desk = draws.one(DESKS);
  const verdict = base > version ? { error: "ahead" } : judge(model, visits, edits, base);
  if (base === version) checkParts(world, edits, verdict);
  const sent = sentOf(model, visits, desk, number, base, edits);
  const { changed } = visitsAfter(model, visits, edits, base);
  const reply = await world.ask("POST", "commits", sent.body);
  const { version: _, ...refusal } = reply.body;
  same(verdict, reply.is === "ok" ? null : refusal, `the draft ${sent.body}`);
  world.count(wordOf(edits, verdict));
  if (verdict?.error === "clash" && isLater(world, edits, verdict)) world.count("clash when wing tips unfold");
  if (reply.is !== "ok") return;
  const made = reply.body.version;
  const expected = new Map([...changed].map(([of, visit]) => [of, { ...visit, edited: made }]));
  await world.expect(changed.keys(), expected, `after the draft ${sent.body}`);
  await checkTaken(world, sent, made);
  if (draws.chance(30)) await sendCopied(world, draws, desk, number);
}

const wordOf = (edits, verdict) => {
  if (verdict === null) return `taken, of ${edits.length === 1 ? "one edit" : "several edits"}`;
  if (verdict.error === "clash") return `clash by ${verdict.rule}`;
  return verdict.error === "unfit" ? `unfit by ${verdict.by === "letter" ? "letter" : "an object"}` : verdict.error;
};

// Whether two parts clash later than at the first minute at which both hold their stands.
function isLater({ model, visits }, edits, { a, b, minute }) {
  const { changed } = visitsAfter(model, visits, edits);
  return minute > Math.max(...[a, b].map(({ visit, part }) => (changed.get(visit) ?? visits.get(visit)).parts[part - 1].from));
}

// What other calls of the page say of the same draft.
function checkParts(world, edits, verdict) {
  const { model, visits } = world;
  checkRow(world, edits, verdict);
  const less = folded(edits.map((edit) => ({ edit }))).map(({ edit }) => edit);
  if (verdict === null) {
    assert.equal(judge(model, visits, less), null, `folded, ${told(edits)} is refused`);
    const partsOf = (list) => [...visitsAfter(model, visits, list).changed].map(([number, { parts }]) => [number, parts]).sort(([one], [two]) => one - two);
    same(partsOf(less), partsOf(edits), `folded, ${told(edits)} does something else`);
  }
  if (edits.every((edit) => visits.has(Object.values(edit)[0].visit))) checkReload(world, edits, verdict);
}

// The row of a picked part says what the whole draft of that one edit is told.
function checkRow({ model, visits }, edits, verdict) {
  const put = edits.length === 1 ? edits[0].put : undefined;
  if (put === undefined || (verdict !== null && !["clash", "unfit"].includes(verdict.error))) return;
  const off = fitsOf(model, indexOf(model, visits.values()), visits.get(put.visit), put.part)[model.standOf.get(put.stand)];
  const { edit: _, error: __, ...why } = verdict ?? {};
  same(off === null ? {} : off.clash ?? off, why, `the row of ${told(put)}`);
}

// After a reload the draft is judged by the days that it needs, read one after the other, as by the whole plan. A visit that is cancelled is on
// no day, and is read by its number.
function checkReload(world, edits, verdict) {
  const { model } = world;
  const kept = edits.map((edit) => keptOf(model, world.visits, edit));
  const covers = new Set();
  const visits = new Map();
  for (let turn = 0; turn < 8; turn++) {
    const needs = needsOf(model, visits, covers, kept);
    for (const number of needs.visits) visits.set(number, world.visits.get(number));
    const [day] = needs.days;
    if (day === undefined) continue;
    for (const visit of world.listed(day)) visits.set(visit.visit, visit);
    covers.add(day);
  }
  same(judgeDraft(model, visits, covers, kept), verdict === null ? { is: "fits" } : { is: "refused", refusal: verdict }, `the draft ${told(edits)} after a reload`);
  world.count(`judged by ${covers.size} days`);
  const again = lookAgain(model, visits, kept);
  assert.equal(again.kept.length + again.dropped.length, kept.length);
  const { refusal } = visitsAfter(model, visits, again.kept.map(({ edit }) => edit));
  assert.equal(refusal, null, `${told(edits)}: what looking again left is refused`);
  assert.equal(again.dropped.length > 0, visitsAfter(model, visits, edits).refusal !== null, `${told(edits)}: what was dropped`);
}

async function checkTaken(world, sent, version) {
  const entry = (await world.ask("GET", `entries/${version}`)).body;
  same(takenOf(sent, version, world.visits, entry), { is: "taken" }, `the draft ${sent.body}`);
}

// Another draft with the same desk and number, as a copied tab would send it: the reply is that of the first, and the page has to see that.
async function sendCopied(world, draws, desk, number) {
  const edits = editsOf(world, draws);
  const base = draws.chance(50) ? world.version : Math.max(0, world.version - draws.between(1, 3));
  const { changed, refusal } = visitsAfter(world.model, world.visits, edits);
  if (refusal !== null) return;
  const copied = sentOf(world.model, world.visits, desk, number, base, edits);
  const reply = await world.ask("POST", "commits", copied.body);
  assert.equal(reply.is, "ok", `a draft that is in the plan is answered ${told(reply.body)}`);
  const entry = (await world.ask("GET", `entries/${reply.body.version}`)).body;
  const { is } = takenOf(copied, reply.body.version, world.visits, entry);
  const isThere = [...changed].every(([of, { parts }]) => told(parts) === told(world.visits.get(of).parts));
  assert.ok(is !== "taken" || isThere, `the copied draft ${copied.body} counts as taken`);
  world.count(`a copied draft is ${is}`);
}

/** The plan that the server has is sound by the page's rules. */
export function checkSound({ model, visits }) {
  const index = indexOf(model, visits.values());
  assert.equal(firstClash(model, index, [...visits.values()].flatMap((visit) => slotsOf(model, visit))), null, "the plan has a clash");
}
