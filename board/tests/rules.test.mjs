// The rules of stands against the worked cases of docs/reference/files.md, docs/reference/http.md and the example sessions.

import assert from "node:assert/strict";
import { test } from "node:test";
import {
  alarmsOf, clearanceOf, firstClash, fitsOf, indexOf, letterOf, meetingOf, modelOf, ruleBetween, slotOn, slotsOf, spanAt, unfitOf,
} from "../rules.js";
import { DEMO, at, demo, part, planOf, present, visit } from "./plans.mjs";

const spanOf = (name) => demo.typeOf.get(name).span;
const between = (one, kind, two, other) => ruleBetween(demo, at(one), spanOf(kind), at(two), spanOf(other));

test("code letters and clearances are those of the table", () => {
  const rows = [[1, "A", 300], [1499, "A", 300], [1500, "B", 300], [2399, "B", 300], [2400, "C", 450], [3599, "C", 450], [3600, "D", 750], [5199, "D", 750],
    [5200, "E", 750], [6499, "E", 750], [6500, "F", 750], [7999, "F", 750]];
  for (const [span, letter, clearance] of rows) assert.deepEqual([letterOf(span), clearanceOf(span)], [letter, clearance], String(span));
});

test("two stands exclude each other by the first rule that holds", () => {
  const rows = [
    ["N1", "A320", "N1", "A320", "same"], ["N1", "A320", "N2", "A320", null], ["N2", "A320", "N3", "A320", "clearance"], ["N1", "B77W", "N2", "A320", "clearance"],
    ["12", "B190", "12L", "B190", "split"], ["12L", "AT76", "12R", "AT76", null], ["12L", "A320", "12R", "A320", "clearance"],
    ["14", "B77W", "15", "A320", "pair"], ["14", "A320", "15", "B77W", null], ["14", "B77W", "15", "B190", null], ["N1", "A388", "S1", "A388", null],
  ];
  for (const [one, kind, two, other, rule] of rows) {
    assert.equal(between(one, kind, two, other), rule, `${kind} on ${one}, ${other} on ${two}`);
    assert.equal(between(two, other, one, kind), rule, `${other} on ${two}, ${kind} on ${one}`);
  }
});

test("a type fits a stand by its letter and beside the objects", () => {
  const rows = [["N1", "B77W", "letter"], ["N1", "A320", null], ["15", "B77W", { object: 1 }], ["15", "A320", null], ["14", "A388", null], ["N3", "A388", "letter"]];
  for (const [name, kind, why] of rows) assert.deepEqual(unfitOf(demo, at(name), demo.typeOf.get(kind)), why, `${kind} on ${name}`);
});

test("wing tips fold in the minutes between", () => {
  const slot = slotOn(demo, visit(1, "B779", [part(600, 800)]), 1, at("14"));
  const rows = [[600, 7175], [604, 7175], [605, 6485], [794, 6485], [795, 7175], [809, 7175]];
  for (const [minute, span] of rows) assert.equal(spanAt(slot, minute), span, String(minute));
});

test("a part of at most twice the folding minutes is never folded", () => {
  const slot = slotOn(demo, visit(1, "B779", [part(600, 610)]), 1, at("14"));
  assert.ok([...Array(20).keys()].every((minute) => spanAt(slot, 600 + minute) === 7175));
});

test("a type that folds at once is out again in the buffer", () => {
  const types = [...DEMO.types, { fold: 0, least: 30, letter: "F", name: "FLD", parked: 1400, span: 7900 }];
  const model = modelOf({ ...DEMO, types });
  const folds = slotOn(model, visit(1, "FLD", [part(600, 700)]), 1, model.standOf.get("14"));
  const other = slotOn(model, visit(2, "A320", [part(600, 720)]), 1, model.standOf.get("15"));
  assert.deepEqual(meetingOf(model, folds, other), { minute: 700, rule: "pair" });
});

test("two slots meet at the first minute at which both hold their stands", () => {
  const slots = (from, to, on) => slotOn(demo, visit(2, "A320", [part(from, to)]), 1, at(on));
  const one = slotOn(demo, visit(1, "A320", [part(600, 660)]), 1, at("N2"));
  const rows = [[slots(650, 700, "N3"), { minute: 650, rule: "clearance" }], [slots(669, 700, "N2"), { minute: 669, rule: "same" }],
    [slots(670, 720, "N2"), null], [slots(500, 591, "N2"), { minute: 600, rule: "same" }], [slots(500, 590, "N2"), null], [slots(650, 700, "N1"), null]];
  for (const [other, met] of rows) {
    assert.deepEqual(meetingOf(demo, one, other), met);
    assert.deepEqual(meetingOf(demo, other, one), met);
  }
});

test("the first clash is the earliest, then that of the smallest parts; two facts are none", () => {
  const three = visit(3, "A320", [part(600, 660, "N1")]);
  const plan = [visit(1, "A320", [part(650, 700, "N1")]), visit(2, "A320", [part(640, 700, "N1")]), three];
  const found = firstClash(demo, indexOf(demo, plan), slotsOf(demo, three));
  assert.deepEqual(found, { a: { part: 1, visit: 2 }, b: { part: 1, visit: 3 }, minute: 640, rule: "same" });
  const facts = [present(1, "A320", 600, 660, "N1"), present(2, "A320", 620, 660, "N1")];
  assert.equal(firstClash(demo, indexOf(demo, facts), slotsOf(demo, facts[0])), null);
});

test("the rows of a picked part say what keeps it off, and pass over the visit itself", () => {
  const picked = visit(2, "A320", [part(600, 660, "N1")]);
  const plan = planOf(visit(1, "A320", [part(600, 660, "N2")]), picked, present(3, "B77W", 500, 605, "12"));
  const off = fitsOf(demo, indexOf(demo, plan.values()), picked, 1);
  assert.equal(off[at("N1")], null);
  assert.deepEqual(off[at("N2")], { clash: { a: { part: 1, visit: 1 }, b: { part: 1, visit: 2 }, minute: 600, rule: "same" } });
  assert.equal(off[at("N3")].clash.rule, "clearance");
  assert.deepEqual(off[at("12L")].clash, { a: { part: 1, visit: 2 }, b: { part: 1, visit: 3 }, minute: 600, rule: "split" });
  assert.equal(off[at("15")], null);
});

test("an alarm is of two facts, from its first minute of the span", () => {
  const index = indexOf(demo, [present(1, "A320", 600, 660, "N1"), present(2, "A320", 650, 1500, "N1"), visit(3, "A320", [part(1500, 1600, "N1")])]);
  assert.deepEqual(alarmsOf(demo, index, 0, 1440), [{ minute: 650, rule: "same", a: { part: 1, visit: 1 }, b: { part: 1, visit: 2 }, stands: [0, 0] }]);
  assert.deepEqual(alarmsOf(demo, index, 655, 1440).map(({ minute }) => minute), [655]);
  assert.deepEqual(alarmsOf(demo, index, 1440, 2880), []);
});
