// Messages, and what a message, a report or a cancel would do, against docs/reference/messages.md and the example sessions.

import assert from "node:assert/strict";
import { test } from "node:test";
import { readReply } from "../forms.js";
import { movementOf } from "../movement.js";
import { effectOf, minuteOf, planDayOf, readFlight, readMvt, sameFlight } from "../mvt.js";
import { daysOfPreview, planAfter, previewCancel, previewMessage, previewMessages, previewReport } from "../preview.js";
import { judge } from "../draft.js";
import { visitsAfter } from "../visits.js";
import { demo, part, planOf, present, visit } from "./plans.mjs";
import { exchangesOf, sessions } from "./sessions.mjs";

const flight = (name, day = 1) => ({ day, flight: name });
const lh123 = { arr: flight("LH123"), dep: flight("LH124") };

test("a message is read as the server reads it", () => {
  const head = "MVT\nLH123/27.DAIQA.MUC\n";
  const rows = [
    [`${head}AD0930/0940 EA1040 APR\n`, { AD: ["0930", "0940"], EA: ["1040"], to: "APR" }], [`QU X\r\n\r\n${head.replaceAll("\n", "\r\n")}ED271105\r\n`, { ED: ["271105"] }],
    [`${head}AA1045/1050 SI ED1200`, { AA: ["1045", "1050"], ED: null }], [`${head}EA1040\nED1200`, { EA: null, ED: ["1200"] }],
    [`${head}EA1040 X ED1200\nADX\nDL31/0010\n`, { EA: null, ED: null, AD: null }], [head, { AA: null }],
  ];
  for (const [text, wanted] of rows) {
    const { message } = readMvt(text);
    for (const [key, value] of Object.entries(wanted)) assert.deepEqual(message?.[key], value, `${key} of ${JSON.stringify(text)}`);
  }
  const faults = [["MVT\nLH1/27.DAIQA.APR\nAD2460\n", { fault: "element", at: 21 }], ["", { fault: "identifier" }], ["MVT\nLH999/27.DAIQA.APR\nAD1000 AD1000", { fault: "twice", at: 30 }],
    ["MVT\nLH1/32.DAIQA.APR\n", { fault: "flight" }], ["MVT", { fault: "flight" }], [`MVT\n${"X".repeat(4000)}`, { fault: "long" }], [`${"\n".repeat(21)}MVT`, { fault: "identifier" }],
    ["MVT\nLH1/27.DAIQA.APR\nAD", { fault: "element", at: 21 }], [`É\nMVT\nLH1/27.DAIQA.APR\nAD2460\n`, { fault: "element", at: 24 }]];
  for (const [text, wanted] of faults) assert.deepEqual(readMvt(text), wanted, JSON.stringify(text));
});

test("flights are the same without the zeros before their numbers", () => {
  const rows = [["LH123", "LH0123", true], ["LH123", "LH123A", false], ["DLH4K", "DLH0004K", true], ["9X1", "9X01", true], ["LH1", "LX1", false]];
  for (const [one, other, wanted] of rows) assert.equal(sameFlight(one, other), wanted);
  for (const text of ["121", "lh12", "LH12345", "LH", "LH12AB", "L1H2"]) assert.equal(readFlight(text), null, text);
});

test("a time means the nearest minute to the schedule, and a day the later of two", () => {
  const rows = [["2355", 1445, 1435], ["0000", 720, 1440], ["1201", 0, null], ["1159", 0, 719], ["0010", 1430, 1450], ["270930", 2000, 570], ["281200", 0, 2160], ["010000", 0, null]];
  for (const [time, scheduled, wanted] of rows) assert.equal(minuteOf(demo, time, scheduled), wanted, time);
  assert.deepEqual([planDayOf(demo, 26, 0), planDayOf(demo, 26, 1), planDayOf(demo, 29, 0)], [0, null, 3]);
});

test("a message without effect says why", () => {
  const plan = planOf(visit(1, "A320", [part(600, 660)], lh123), present(2, "A320", 600, 660, "N1", { arr: flight("LH5") }));
  const none = (line, of = "LH123/27.DAIQA.APR") => effectOf(demo, plan, readMvt(`MVT\n${of}\n${line}`).message).none;
  assert.match(none("EA1040 APR"), /nothing of this airport/);
  assert.match(none("AA1040", "LH9/27.DAIQA.APR"), /no visit that is expected or on block arrives/);
  assert.match(none("AD0930"), /no visit that is expected or on block leaves/);
  assert.match(none("AA1040/1045", "LH5/27.DAIQA.APR"), /on block already/);
  assert.match(none("AA010000"), /outside the plan/);
  assert.match(none("AD0930", "LH124/27.DAIQA.APR"), /no part of the visit has begun/);
});

test("a late arrival takes the stand of a planned part of lesser rank, and not of a greater", () => {
  const text = "MVT\nLH123/27.DAIQA.MUC\nAD0930/0940 EA1040 APR\n";
  const late = visit(1, "A320", [part(600, 660, "N1")], { ...lh123, class: 1 });
  const bumps = (other, it = late) => previewMessage(demo, planOf(it, other), text);
  const taken = bumps(visit(2, "A320", [part(680, 740, "N1")], { class: 5 }));
  assert.deepEqual(taken.bumped, [{ visit: 2, part: 1, stand: "N1", blocker: { part: 1, visit: 1 }, minute: 680, rule: "same" }]);
  assert.deepEqual([taken.after.parts[0].from, taken.after.parts[0].to, taken.asks, taken.final], [645, 685, true, null]);
  const lost = bumps(visit(2, "A320", [part(680, 740, "N1")], { class: 0 }));
  assert.deepEqual(lost.bumped.map((it) => it.visit), [1]);
  assert.deepEqual(bumps(visit(2, "A320", [part(700, 760, "N1")])).asks, false);
});

test("a report says who would lose a stand, what looks mistyped, and what can't be undone", () => {
  const plan = planOf(visit(1, "A320", [part(600, 660, "N2")]), visit(2, "B77W", [part(600, 700)]), present(3, "A320", 600, 660, "S1"));
  const wide = previewReport(demo, plan, { visit: 2, on: { part: 1, stand: "N1", minute: 610 } });
  assert.deepEqual(wide.bumped, [{ visit: 1, part: 1, stand: "N2", blocker: { part: 1, visit: 2 }, minute: 610, rule: "clearance" }]);
  assert.match(wide.notes.join(), /B77W does not fit N1/);
  const other = previewReport(demo, plan, { visit: 1, on: { part: 1, stand: "S1", minute: 605 } });
  assert.deepEqual([other.notes, other.alarms.length, other.asks], [["It is planned on N2."], 1, true]);
  assert.equal(previewReport(demo, plan, { visit: 1, on: { part: 1, stand: "N2", minute: 605 } }).asks, false);
  assert.match(previewReport(demo, plan, { visit: 3, off: { minute: 650 } }).final, /can't be undone/);
  const rows = [[{ visit: 9, off: { minute: 1 } }, "unknown"], [{ visit: 1, on: { part: 2, stand: "N1", minute: 1 } }, "part"], [{ visit: 1, off: { minute: 600 } }, "time"],
    [{ visit: 1, off: { minute: 4320 } }, "time"], [{ visit: 1, on: { part: 1, stand: "X", minute: 1 } }, "stand"]];
  for (const [said, error] of rows) assert.deepEqual(previewReport(demo, plan, said).refused, { error });
  assert.deepEqual(daysOfPreview(demo, previewReport(demo, plan, { visit: 3, off: { minute: 1500 } })), [1, 2]);
});

test("a cancel can't be undone, and is refused on block", () => {
  const plan = planOf(visit(1, "A320", [part(600, 660, "N2")]), present(3, "A320", 600, 660, "S1"));
  const { asks, final, bumped } = previewCancel(demo, plan, { visit: 1 });
  assert.deepEqual([asks, bumped], [true, []]);
  assert.match(final, /V1 is never free again/);
  assert.deepEqual([previewCancel(demo, plan, { visit: 3 }).refused.error, previewCancel(demo, plan, { visit: 4 }).refused.error], ["onblock", "unknown"]);
});

test("given times of a visit make the message that says them", () => {
  const it = visit(1, "A320", [part(600, 660, "N1")], lh123);
  const made = (wanted, of = it) => movementOf(demo, planOf(of), of, wanted);
  const texts = (wanted, of) => made(wanted, of).messages.map(({ text }) => text);
  const why = (wanted, of) => made(wanted, of).cannot.map((cannot) => cannot.why);
  assert.deepEqual(texts({ on: 645 }), ["MVT\nLH123/27.UNKNOWN.ZZZ\nEA1040 APR\n"]);
  assert.deepEqual(texts({ on: 645, off: 700 }), ["MVT\nLH123/27.UNKNOWN.ZZZ\nEA1040 APR\n", "MVT\nLH124/27.UNKNOWN.APR\nED1140\n"]);
  assert.deepEqual(texts({ on: 610, actual: true, registration: "DAIQA" }), ["MVT\nLH123/27.DAIQA.APR\nAA1005/1010\n"]);
  assert.deepEqual(texts({ off: 655, actual: true }), ["MVT\nLH124/27.UNKNOWN.APR\nAD1055\n"]);
  assert.deepEqual(texts({ on: 2000 }), ["MVT\nLH123/27.UNKNOWN.ZZZ\nEA280915 APR\n"]);
  assert.deepEqual(texts({ on: 5 }), ["MVT\nLH123/27.UNKNOWN.ZZZ\nEA0000 APR\n"]);
  assert.deepEqual([texts({ off: 4319 }), why({ off: 4320 })], [["MVT\nLH124/27.UNKNOWN.APR\nED292359\n"], ["the time is outside the plan"]]);
  assert.deepEqual(texts({ on: 600, off: 660 }), []);
  assert.deepEqual([made({ on: 645 }).messages[0].after.parts[0].to, made({ on: 645 }).messages[0].says], [685, "EA"]);
  assert.match(why({ on: 645 }, visit(1, "A320", [part(600, 660)]))[0], /no arrival flight/);
  assert.match(why({ off: 620 })[0], /lasts 40 minutes at least/);
  assert.match(why({ on: 645 }, present(1, "A320", 600, 660, "N1", lh123))[0], /on block already/);
  assert.match(why({ on: 4 })[0], /outside the plan/);
  assert.match(why({ off: 700 }, { ...it, state: "gone" })[0], /has left/);
  const twin = visit(2, "A320", [part(600, 660)], lh123);
  assert.match(movementOf(demo, planOf(it, twin), twin, { on: 645 }).cannot[0].why, /visit V1 has the same arrival flight/);
});

test("of two messages the second finds what the first has done", () => {
  const it = visit(1, "A320", [part(600, 660, "N1")], { ...lh123, class: 1 });
  const plan = planOf(it, visit(2, "A320", [part(680, 740, "N1")], { class: 5 }), visit(3, "A320", [part(760, 800, "N1")], { class: 5 }));
  const texts = movementOf(demo, plan, it, { on: 645, off: 755 }).messages.map(({ text }) => text);
  const [first, second] = previewMessages(demo, plan, texts);
  assert.deepEqual([first.bumped.map((of) => of.visit), second.bumped.map((of) => of.visit)], [[2], [3]]);
});

// ---------------------------------------------------------------- The example sessions

const PREVIEWS = { mvt: previewMessage, reports: previewReport, cancels: previewCancel };

// The plan of a session as it goes on: each reply that shows visits is believed, and each command changes it as the page expects.
class Replay {
  visits = new Map();

  step({ asked: { method, target, body }, reply }) {
    const { is, body: told } = readReply({ method, target }, reply);
    const { version, ...rest } = told;
    if (method === "POST" && target === "visits" && is === "ok" && !this.visits.has(told.visit)) this.add(told, JSON.parse(body));
    if (method === "GET" && /^visits\/\d+$/.test(target) && is === "ok") assert.deepEqual(this.visits.get(rest.visit), rest);
    if (method !== "POST" || ["json", "mvt", "ahead", "desk", "seen"].includes(rest.error)) return null;
    if (PREVIEWS[target] !== undefined) return this.fact(target, body, is, version, rest);
    return target === "commits" && version === this.version + 1 ? this.commit(JSON.parse(body), version) : null;
  }

  add({ visit: number }, { name, type, class: rank, on, off, arr, dep }) {
    const short = (it) => (it ? { day: it.day, flight: Object.values(readFlight(it.flight)).join("") } : null);
    this.visits.set(number, visit(number, type, [part(on, off)], { name, class: rank, on, off, arr: short(arr), dep: short(dep) }));
  }

  commit({ edits }, version) {
    assert.equal(judge(demo, this.visits, edits), null);
    for (const [number, it] of visitsAfter(demo, this.visits, edits).changed) this.visits.set(number, { ...it, edited: version });
    return "commit";
  }

  fact(target, body, is, version, rest) {
    const preview = PREVIEWS[target](demo, this.visits, target === "mvt" ? body : JSON.parse(body));
    if (preview.refused !== null) {
      assert.deepEqual(rest, preview.refused);
      return `refused ${rest.error}`;
    }
    assert.equal(is, "ok", JSON.stringify(rest));
    const bumped = preview.bumped.map((it) => ({ part: it.part, visit: it.visit }));
    if (target !== "cancels") assert.deepEqual(rest.bumped, bumped);
    if (target === "mvt") assert.equal(rest.visit, preview.visit);
    this.visits = planAfter(this.visits, preview, version);
    return bumped.length > 0 ? `${target} bumps` : target;
  }
}

test("the example sessions do to the plan what a preview says", () => {
  const met = {};
  for (const session of sessions()) {
    const replay = new Replay();
    replay.version = 0;
    for (const exchange of exchangesOf(session)) {
      const type = exchange.asked.body.match(/"type": ?"(\w+)"/)?.[1] ?? "A320";
      if (!demo.typeOf.has(type)) break;
      const word = replay.step(exchange);
      replay.version = Math.max(replay.version, exchange.reply.version);
      if (word !== null) met[word] = (met[word] ?? 0) + 1;
    }
  }
  for (const word of ["commit", "mvt", "mvt bumps", "reports", "reports bumps", "cancels", "refused time", "refused gone", "refused onblock"]) {
    assert.ok(met[word] > 0, `no session has ${word}: ${JSON.stringify(met)}`);
  }
});
