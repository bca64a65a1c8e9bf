// What forms.js lets through, no other module stumbles over: pictures with one value changed at random, of which many are still of the form.

import assert from "node:assert/strict";
import { test } from "node:test";
import { changeLine, changesOf } from "../changes.js";
import { closing } from "../closures.js";
import { delaysOf, ghostOf, timesOf } from "../delays.js";
import { judgeDraft, keptOf, lookAgain, needsOf } from "../draft.js";
import { readReply } from "../forms.js";
import { movementOf } from "../movement.js";
import { previewCancel, previewMessage, previewReport } from "../preview.js";
import { proposalOf } from "../proposal.js";
import { alarmsOf, fitsOf, indexOf } from "../rules.js";
import { found } from "../search.js";
import { shadowsOf } from "../shadows.js";
import { soonOf } from "../soon.js";
import { demo, part, present, visit } from "./plans.mjs";
import { drawsOf } from "./oracle/draws.mjs";

const MUTANTS = 800;
const bump = { blocker: { part: 1, visit: 1 }, entry: 5, minute: 600, rule: "same", stand: "N1" };
const flights = { arr: { day: 1, flight: "LH123" }, dep: { day: 1, flight: "LH124" } };
const PAGE = JSON.stringify({
  version: 9,
  visits: [
    present(1, "A320", 600, 660, "N1", flights), visit(2, "B779", [part(610, 900, "14"), part(920, 1500, "15")], flights), visit(3, "A320", [part(600, 700, null, { bump })]),
    visit(4, "B190", [part(600, 720, "S1")], { name: "CLOSED-4", class: 0 }), present(5, "AT76", 500, 560, "12L", { state: "gone" }),
  ],
});

// The places of all values in a tree.
const pathsOf = (value, path = []) => (typeof value === "object" && value !== null
  ? Object.entries(value).flatMap(([key, it]) => [[...path, key], ...pathsOf(it, [...path, key])]) : []);

const WORDS = ["", "N1", "12", "A320", "gone", "onblock", "cancelled", "expected", "LH1", "CLOSED-7", "\u0000", "same", "2026-03-27"];
const VALUES = [0, 1, -1, 0.5, 3, 255, 1440, 4320, 65535, 4294967295, 4294967296, null, true, false, [], {}, ...WORDS];

function mutant(draws) {
  const page = JSON.parse(PAGE);
  for (let left = draws.between(1, 2); left > 0; left--) {
    const path = draws.one(pathsOf(page));
    const holder = path.slice(0, -1).reduce((it, key) => it?.[key], page);
    if (holder === undefined || holder === null) continue;
    if (draws.chance(5)) delete holder[path.at(-1)];
    else holder[path.at(-1)] = draws.one(draws.chance(70) ? VALUES.filter((it) => typeof it === typeof holder[path.at(-1)]) : VALUES);
  }
  return JSON.stringify(page);
}

// Asks every module about a picture, as a page does.
function lookAt({ version, visits: all }) {
  const visits = new Map(all.map((it) => [it.visit, it]));
  const index = indexOf(demo, visits.values());
  const name = (id) => `${id.visit}.${id.part}`;
  alarmsOf(demo, index, 0, 1440);
  for (const stand of demo.stands.keys()) shadowsOf(demo, index, stand, 0, 1440);
  for (const now of [0, 655, 700, 1500]) soonOf(demo, visits, now);
  proposalOf(demo, visits, { begin: 0, end: 4320, now: 650 });
  found(demo, visits, "LH", 650);
  closing(demo, visits, { stand: "N2", from: 600, to: 700, type: "B190" });
  for (const it of visits.values()) {
    timesOf(it, 650);
    it.parts.forEach((_, place) => {
      ghostOf(it, place + 1);
      delaysOf(it, place + 1);
      fitsOf(demo, index, it, place + 1);
      previewReport(demo, visits, { visit: it.visit, on: { part: place + 1, stand: "N1", minute: 650 } });
    });
    previewReport(demo, visits, { visit: it.visit, off: { minute: 650 } });
    previewCancel(demo, visits, { visit: it.visit });
    movementOf(demo, visits, it, { on: 640, off: 720 });
    const kept = [keptOf(demo, visits, { put: { visit: it.visit, part: 1, stand: "N1" } })];
    needsOf(demo, visits, new Set([1]), kept);
    judgeDraft(demo, visits, new Set([1, 2, 3]), kept);
    lookAgain(demo, visits, kept);
  }
  previewMessage(demo, visits, "MVT\nLH123/27.DAIQA.APR\nAA1045/1050\n");
  const before = { visits: new Map(JSON.parse(PAGE).visits.map((it) => [it.visit, it])), covers: new Set([1, 2]), version: 8 };
  for (const change of changesOf(demo, before, { visits, covers: new Set([1]), version })) assert.equal(typeof changeLine(change, String), "string", name(change));
}

test("no module stumbles over what has the form of a day", () => {
  const draws = drawsOf(7);
  let taken = 0;
  for (let number = 0; number < MUTANTS; number++) {
    const text = mutant(draws);
    const { is, body } = readReply({ method: "GET", target: "day/1" }, { status: 200, text }, demo);
    if (is !== "ok") continue;
    taken += 1;
    try {
      lookAt(body);
    } catch (fault) {
      assert.fail(`${fault.stack}\nat ${text}`);
    }
  }
  assert.ok(taken > MUTANTS / 10 && taken < MUTANTS, `${taken} of ${MUTANTS} were of the form`);
});
