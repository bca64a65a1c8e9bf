// Warnings before an alarm.

import assert from "node:assert/strict";
import { test } from "node:test";
import { indexOf, modelOf } from "../rules.js";
import { soonOf, soonWords, standingIn } from "../soon.js";
import { DEMO, at, demo, part, planOf, present, visit } from "./plans.mjs";

const told = (plan, now, minutes) => soonOf(demo, plan, now, minutes).map(({ kind, level, minute, visit: number }) => `${kind} ${level} ${minute} ${number}`);
const next = visit(2, "A320", [part(680, 740, "N1")]);

test("a stand that is still occupied when the next is due: amber, then red, by the minutes that are left", () => {
  const plan = planOf(present(1, "A320", 600, 660, "N1"), next);
  const rows = [[649, []], [650, ["occupied watch 680 2"]], [659, ["occupied watch 680 2"]], [660, ["occupied amber 680 2"]], [669, ["occupied amber 680 2"]],
    [670, ["occupied red 680 2"]], [695, ["occupied red 695 2"]]];
  for (const [now, wanted] of rows) assert.deepEqual(told(plan, now), wanted, String(now));
  assert.deepEqual(told(plan, 660, { within: 15 }), []);
  assert.deepEqual(told(plan, 660, { red: 20 }), ["occupied red 680 2"]);
  const [warning] = soonOf(demo, plan, 672);
  assert.deepEqual([warning.left, warning.by, warning.stand], [8, { visit: 1, part: 1, stand: at("N1"), rule: "same", overdue: 12 }, at("N1")]);
});

test("folded wing tips are in nobody's way until they unfold", () => {
  const model = modelOf({ ...DEMO, pairs: [{ a: "14", b: "15", la: "F", lb: "C" }] });
  const beside = visit(2, "A320", [part(720, 780, "15")]);
  assert.deepEqual(soonOf(model, planOf(present(1, "B779", 600, 1000, "14"), beside), 700), []);
  assert.deepEqual(soonOf(model, planOf(present(1, "B779", 600, 690, "14"), beside), 700).map(({ level, minute }) => [level, minute]), [["amber", 720]]);
});

test("what is cancelled warns of nothing, and an aircraft is there from its minute on block on", () => {
  assert.deepEqual(told(planOf(visit(1, "A320", [part(680, 740)], { state: "cancelled" })), 670), []);
  assert.deepEqual(told(planOf(present(1, "A320", 671, 672, "N1"), next), 670), []);
  assert.deepEqual(told(planOf(present(1, "A320", 670, 675, "N1"), next), 670), ["occupied watch 680 2"]);
});

test("it is over when the aircraft has left or was towed on", () => {
  const towed = present(1, "A320", 600, 640, "N1");
  towed.parts.push(part(660, 720, "S1", { actual: true }));
  assert.deepEqual(told(planOf({ ...present(1, "A320", 600, 660, "N1"), state: "gone" }, next), 672), []);
  assert.deepEqual(told(planOf(towed, next), 672), []);
});

test("a wide neighbour that has not left is in the way by its wing tips, and a half of the stand too", () => {
  const wide = planOf(present(1, "B77W", 500, 650, "N2"), next);
  assert.deepEqual(soonOf(demo, wide, 672).map(({ by }) => by.rule), ["clearance"]);
  const half = planOf(present(1, "AT76", 500, 650, "12L"), visit(2, "A320", [part(680, 740, "12")]));
  assert.deepEqual(soonOf(demo, half, 672).map(({ by }) => by.rule), ["split"]);
  assert.deepEqual(told(planOf(present(1, "AT76", 500, 650, "12L"), visit(2, "AT76", [part(680, 740, "12R")])), 672), []);
});

test("a closure warns of an aircraft that is still there, and of nothing if it has no stand", () => {
  const closure = (stand) => visit(2, "B190", [part(680, 740, stand)], { name: "CLOSED-2", class: 0 });
  assert.deepEqual(told(planOf(present(1, "A320", 600, 660, "N1"), closure("N1")), 660), ["occupied amber 680 2"]);
  assert.deepEqual(told(planOf(closure(null)), 660), []);
});

test("an arrival that is earlier than scheduled needs the stand of an overdue departure", () => {
  const early = visit(2, "A320", [part(675, 740, "N1")], { on: 700 });
  assert.deepEqual(told(planOf(present(1, "A320", 600, 660, "N1"), early), 670), ["needed red 675 2"]);
  const bump = { blocker: { part: 1, visit: 1 }, entry: 5, minute: 665, rule: "same", stand: "N1" };
  const lost = visit(2, "A320", [part(665, 740, null, { bump })], { on: 700 });
  assert.deepEqual(told(planOf(present(1, "A320", 600, 660, "N1"), lost), 655), ["needed red 665 2"]);
  assert.deepEqual(told(planOf({ ...present(1, "A320", 600, 660, "N1"), state: "gone" }, lost), 655), ["nostand red 665 2"]);
});

test("a part without a stand whose time comes, with the stands that it fits", () => {
  const plan = planOf(visit(1, "A320", [part(680, 740)]), visit(2, "A320", [part(660, 760, "N2")]), present(3, "A320", 500, 640, "S1"));
  assert.deepEqual([told(plan, 649), told(plan, 650), told(plan, 670)], [[], ["nostand amber 680 1"], ["nostand red 680 1"]]);
  const [{ fits }] = soonOf(demo, plan, 650);
  const names = fits.map((stand) => demo.stands[stand].name);
  assert.equal(names[0], "N1");
  assert.ok(!names.includes("N2") && !names.includes("N3"), "others are near");
  assert.ok(!names.includes("S1"), "somebody overdue stands there");
  assert.deepEqual(told(plan, 740), []);
});

test("of the stands that mend it those of the least letter come first, and then the first of the airport", () => {
  const [{ fits }] = soonOf(demo, planOf(visit(1, "A320", [part(680, 740)])), 670);
  assert.deepEqual(fits.map((stand) => demo.stands[stand].name), ["N1", "N2", "S1", "S2", "S4", "S5", "12L", "12R", "N3", "S3", "12", "15", "14"]);
});

test("warnings are in the order of their minutes", () => {
  const plan = planOf(visit(1, "A320", [part(690, 740)]), visit(2, "A320", [part(680, 740, "N1")]), present(3, "A320", 600, 660, "N1"), visit(4, "A320", [part(675, 740)]));
  assert.deepEqual(told(plan, 670), ["nostand red 675 4", "occupied red 680 2", "nostand amber 690 1"]);
  const same = planOf(visit(6, "A320", [part(680, 740)]), visit(5, "A320", [part(680, 740)]), next, present(1, "A320", 600, 675, "N1"));
  assert.deepEqual(told(same, 670), ["nostand red 680 5", "nostand red 680 6", "occupied watch 680 2"]);
});

test("a drop on a stand where somebody overdue still is says so, if it is for soon", () => {
  const plan = planOf(present(1, "A320", 600, 660, "N1"), visit(2, "A320", [part(690, 740)]), visit(3, "A320", [part(900, 960)]));
  const index = indexOf(demo, plan.values());
  const standing = (number, stand, now) => standingIn(demo, index, plan, plan.get(number), 1, at(stand), now);
  assert.deepEqual(standing(2, "N1", 672), [{ visit: 1, part: 1, stand: at("N1"), rule: "same", overdue: 12 }]);
  assert.deepEqual([standing(2, "N1", 660), standing(2, "N2", 672), standing(3, "N1", 672)], [[], [], []]);
});

test("a warning reads as a sentence", () => {
  const say = { name: ({ visit: number }) => `V${number}`, stand: (place) => demo.stands[place].name, when: String };
  const words = (plan, now) => soonOf(demo, plan, now).map((it) => soonWords(it, say));
  assert.deepEqual(words(planOf(present(1, "A320", 600, 660, "N1"), next), 672), ["N1 is not clear for V2 at 680: V1 is still there, 12 min over its time"]);
  assert.deepEqual(words(planOf(present(1, "B77W", 500, 680, "N2"), next), 672), ["N1 is not clear for V2 at 680: V1 is still on N2"]);
  const bump = { blocker: { part: 1, visit: 9 }, entry: 5, minute: 680, rule: "same", stand: "N1" };
  assert.deepEqual(words(planOf(visit(1, "A320", [part(680, 740, null, { bump })])), 672), ["V1 comes at 680 and has no stand, it lost N1"]);
  assert.deepEqual(words(planOf(visit(1, "A320", [part(660, 740)], { state: "onblock" })), 672), ["V1 is here since 660 and has no stand"]);
  const towed = present(1, "A320", 600, 675, "N1");
  towed.parts.push(part(695, 740));
  assert.deepEqual(words(planOf(towed), 672), ["V1 is to be towed at 695 and has no stand to go to"]);
  assert.deepEqual(words(planOf(visit(1, "A320", [part(680, 740)])), 672), ["V1 comes at 680 and has no stand"]);
});
