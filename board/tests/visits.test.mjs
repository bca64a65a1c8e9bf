// What edits, estimates and facts do to the parts of a visit, against docs/reference/http.md and docs/reference/messages.md.

import assert from "node:assert/strict";
import { test } from "node:test";
import { arrived, byRank, cancelled, daysOf, departed, isListed, offExpected, partsAfter, pushed, stateOf, visitsAfter, waitingOf } from "../visits.js";
import { demo, part, planOf, present, visit } from "./plans.mjs";

const times = (it) => it.parts.map(({ from, to }) => [from, to]);
const bump = { blocker: { part: 1, visit: 9 }, entry: 5, minute: 600, rule: "same", stand: "N1" };

test("an edit does one thing, or is refused for its first cause", () => {
  const whole = visit(1, "A320", [part(600, 800, null, { bump })]);
  const three = visit(2, "A320", [part(600, 650), part(670, 720), part(740, 800)]);
  const towed = visit(3, "A320", [part(600, 650, "N1", { actual: true }), part(670, 720, "N2", { actual: true })], { state: "onblock" });
  const rows = [
    [whole, "put", { part: 1, stand: "N1" }, [part(600, 800, "N1")]], [whole, "lift", { part: 1 }, [part(600, 800)]],
    [whole, "cut", { part: 1, at: 640 }, [part(600, 640, null, { bump }), part(660, 800)]], [whole, "cut", { part: 1, at: 639 }, "cut"],
    [whole, "cut", { part: 1, at: 740 }, [part(600, 740, null, { bump }), part(760, 800)]], [whole, "cut", { part: 1, at: 741 }, "cut"],
    [three, "cut", { part: 3, at: 770 }, "cut"], [three, "join", { part: 2 }, [part(600, 650), part(670, 800)]], [three, "join", { part: 3 }, "join"],
    [whole, "put", { part: 2, stand: "N1" }, "part"], [whole, "put", { part: 0, stand: "N1" }, "part"], [{ ...whole, state: "gone" }, "lift", { part: 9 }, "gone"],
    [towed, "put", { part: 2, stand: "N2" }, "onblock"], [towed, "join", { part: 1 }, "onblock"], [towed, "cut", { part: 1, at: 640 }, "onblock"],
    [visit(4, "B77W", [part(600, 700)]), "put", { part: 1, stand: "N1" }, "unfit"],
  ];
  for (const [it, kind, said, wanted] of rows) {
    const after = partsAfter(demo, it, kind, said);
    assert.deepEqual(after.error ?? after.parts, wanted, `${kind} ${JSON.stringify(said)} of visit ${it.visit}`);
  }
});

test("edits apply in their order, and the first refusal names its edit", () => {
  const plan = planOf(visit(1, "A320", [part(600, 800, "N1")], { edited: 7 }));
  const cut = [{ cut: { visit: 1, part: 1, at: 700 } }, { put: { visit: 1, part: 2, stand: "N2" } }];
  assert.deepEqual(visitsAfter(demo, plan, cut).changed.get(1).parts, [part(600, 700, "N1"), part(720, 800, "N2")]);
  assert.deepEqual(visitsAfter(demo, plan, [cut[0], { lift: { visit: 5, part: 1 } }, { join: { visit: 1, part: 2 } }]).refusal, { edit: 2, error: "unknown" });
  assert.deepEqual(visitsAfter(demo, plan, cut, 6).refusal, { edit: 1, error: "overtaken", edited: 7, visit: 1 });
  assert.equal(visitsAfter(demo, plan, cut, 7).refusal, null);
});

test("a part that begins later ends no earlier, lasts the least minutes, and delays those behind it", () => {
  const it = visit(1, "A320", [part(600, 660), part(680, 740)]);
  const rows = [[1, 645, [[645, 685], [705, 745]]], [1, 610, [[610, 660], [680, 740]]], [1, 580, [[580, 660], [680, 740]]], [2, 720, [[600, 660], [720, 760]]]];
  for (const [of, from, wanted] of rows) assert.deepEqual(times(pushed(demo, it, of, from)), wanted, `${of} from ${from}`);
});

test("an aircraft on block is there in fact, with all parts before", () => {
  const it = visit(1, "A320", [part(600, 660, "N1"), part(680, 740, null, { bump })]);
  const first = arrived(demo, it, 1, 605, null);
  assert.deepEqual([first.state, first.parts[0], first.parts[1]], ["onblock", part(605, 660, "N1", { actual: true }), part(680, 740, null, { bump })]);
  const towed = arrived(demo, it, 2, 690, "S1");
  assert.deepEqual(towed.parts, [part(600, 670, "N1", { actual: true }), part(690, 740, "S1", { actual: true })]);
  assert.equal(arrived(demo, it, 2, 620, "S1"), null);
  assert.deepEqual(times(arrived(demo, it, 2, 621, "S1")), [[600, 601], [621, 740]]);
  assert.equal(arrived(demo, towed, 1, 600, "N1"), null);
  assert.equal(arrived(demo, visit(2, "A320", [part(600, 660)]), 1, 600, null).parts[0].actual, false);
});

test("an aircraft off block leaves its later parts behind", () => {
  const it = visit(1, "A320", [part(600, 660, "N1"), part(680, 740)]);
  assert.deepEqual(departed(it, 680).parts, [part(600, 680, "N1", { actual: true })]);
  assert.deepEqual(times(departed(it, 681)), [[600, 660], [680, 681]]);
  assert.equal(departed(it, 681).state, "gone");
  assert.equal(departed(it, 600), null);
  assert.deepEqual(times(offExpected(demo, it, 800)), [[600, 660], [680, 800]]);
  assert.deepEqual(times(offExpected(demo, it, 690)), [[600, 660], [680, 720]]);
  assert.deepEqual(cancelled(it).parts.map(({ stand }) => stand), [null, null]);
});

test("a part is expected, on block, overdue or gone", () => {
  const towed = visit(1, "A320", [part(600, 650, "N1", { actual: true }), part(670, 720, "N2", { actual: true })], { state: "onblock" });
  const rows = [[towed, 1, 700, "gone"], [towed, 2, 720, "onblock"], [towed, 2, 721, "overdue"], [visit(2, "A320", [part(600, 650)]), 1, 700, "expected"],
    [{ ...towed, state: "gone" }, 2, 600, "gone"]];
  for (const [it, of, now, wanted] of rows) assert.equal(stateOf(it, of, now), wanted);
});

test("a visit is on the days of its parts and of the longest buffer", () => {
  assert.deepEqual(daysOf(demo, visit(1, "A320", [part(1400, 1430)])), [1]);
  assert.deepEqual(daysOf(demo, visit(1, "A320", [part(1400, 1431)])), [1, 2]);
  assert.deepEqual(daysOf(demo, visit(1, "A320", [part(1400, 1430), part(4000, 4320)])), [1, 2, 3]);
  const rows = [[part(1400, 1430, "N1"), 2, false], [part(1400, 1431, "N1"), 2, true], [part(1400, 1440), 2, false], [part(1400, 1441), 2, true]];
  for (const [it, day, wanted] of rows) assert.equal(isListed(demo, visit(1, "A320", [it]), day), wanted);
});

test("waiting parts are in the order of their ranks", () => {
  const plan = [visit(3, "A320", [part(650, 700)]), visit(2, "A320", [part(600, 700)]), visit(1, "A320", [part(900, 960)], { class: 1 }),
    visit(4, "A320", [part(600, 640), part(660, 700)]), visit(5, "A320", [part(600, 660)], { state: "cancelled" }), present(6, "A320", 600, 660, "N1")];
  assert.deepEqual(waitingOf(plan, 0, 1440).map((it) => [it.visit.visit, it.part]), [[1, 1], [2, 1], [4, 1], [4, 2], [3, 1]]);
  assert.deepEqual(waitingOf(plan, 640, 650).map((it) => it.visit.visit), [2]);
  assert.ok(byRank({ visit: plan[0], part: 1 }, { visit: plan[0], part: 2 }) < 0);
});
