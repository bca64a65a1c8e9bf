// What is the server's reply and what is not, each named in its own words.

import assert from "node:assert/strict";
import { test } from "node:test";
import { formFault, isAnswer, kindOf, readReply, retrySeconds } from "../forms.js";
import { DEMO, demo, part, visit } from "./plans.mjs";
import { exchangesOf, sessions } from "./sessions.mjs";

const get = (target, status, body) => readReply({ method: "GET", target }, { status, text: typeof body === "string" ? body : JSON.stringify(body) });
const day = (...visits) => ({ version: 5, visits });

test("whole replies are taken", () => {
  const rows = [["airport", DEMO], ["day/1", day(visit(1, "A320", [part(600, 660, "N1")]))], ["version", { version: 0 }], ["unplaced", { parts: [], version: 1 }],
    ["visits/1", { ...visit(1, "A320", [part(600, 660)]), version: 3 }], ["entries/8", { call: 18, desk: null, entry: 8, kind: "visit", version: 8 }],
    ["feeds/ALL/0", { bumps: [], version: 5 }], ["chart/1", "STAND CHART APR 2026-03-27 VERSION 5\nPARTS\nUNPLACED\nALARMS\nEND\n"]];
  for (const [target, body] of rows) assert.deepEqual(get(target, 200, body), { is: "ok", body }, target);
});

test("a reply of another form is named", () => {
  const good = visit(1, "A320", [part(600, 660, "N1")]);
  const rows = [
    ["day/1", { version: 5 }, "day.visits is missing"], ["day/1", { visits: [], version: "5" }, "day.version is not a whole number"],
    ["day/1", day({ ...good, parts: [] }), "day.visits[0].parts has 0 entries"], ["day/1", day(good, { ...good, state: "here" }), /^day\.visits\[1\]\.state is none of/],
    ["day/1", day({ ...good, parts: [part(660, 660)] }), "day.visits[0].parts[0] ends before it begins"], ["day/1", [], "day is not an object"],
    ["day/1", null, "day is not an object"], ["version", 5, "version is not an object"], ["airport", { ...DEMO, stands: [] }, "airport.stands has 0 entries"],
    ["airport", { ...DEMO, first_day: "2026-13-41" }, "airport.first_day is not a date"], ["airport", { ...DEMO, frontages: [] }, "airport.frontages has no N"],
    ["airport", { ...DEMO, pairs: [{ a: "N1", b: "X9", la: "A", lb: "A" }] }, "airport.stands has no X9"],
  ];
  for (const [target, body, fault] of rows) {
    const found = get(target, 200, body);
    assert.equal(found.cause, "foreign");
    assert.match(found.words, fault instanceof RegExp ? new RegExp(fault.source.slice(1)) : new RegExp(fault.replace(/[.[\]]/g, "\\$&")));
  }
});

test("a visit has a type and stands of the airport", () => {
  assert.equal(formFault("day", day(visit(1, "A320", [part(600, 660, "N1")])), demo), null);
  assert.match(formFault("day", day(visit(1, "ZZZ", [part(600, 660)])), demo), /no type ZZZ/);
  assert.match(formFault("day", day(visit(1, "A320", [part(600, 660, "Z1")])), demo), /no stand Z1/);
});

test("each trouble has its cause and words of its own, and says whether a command may have been taken", () => {
  const rows = [
    [{ status: 401, text: "<html>" }, "login", false], [{ status: 403, text: "" }, "forbidden", false], [{ status: 404, text: "<html>404" }, "missing", false],
    [{ status: 502, text: "<html>" }, "gateway", true], [{ status: 504, text: "" }, "gateway", true], [{ status: 503, text: "busy" }, "gateway", true],
    [{ status: 503, text: '{"error":"keeper"}' }, "disk", true], [{ status: 507, text: '{"error":"memory"}' }, "memory", false],
    [{ status: 500, text: "" }, "status", true], [{ status: 413, text: "<html>" }, "status", false], [{ status: 0, failed: "slow", seconds: 5 }, "slow", true],
    [{ status: 0, failed: "nobody" }, "nobody", true], [{ status: 0, failed: "redirect" }, "redirect", false], [{ status: 0 }, "nobody", true],
    [{ status: 200, text: "<!doctype html><title>Log in" }, "foreign", true], [{ status: 200, text: '{"version":5,"visits":[{"arr"' }, "cut", true],
    [{ status: 200, text: "" }, "foreign", true], [{ status: 204, text: "" }, "status", true], [{ status: 409, text: "{}" }, "status", false],
  ];
  const said = rows.map(([got, cause, mayBeTaken]) => {
    const found = readReply({ method: "POST", target: "commits" }, got);
    assert.deepEqual([found.is, found.cause, found.mayBeTaken], ["trouble", cause, mayBeTaken], JSON.stringify(got));
    return [cause, found.words.replace(/\d+/g, "")];
  });
  const causes = new Set(said.map(([cause]) => cause));
  assert.equal(new Set(said.map(([, words]) => words)).size >= causes.size, true);
});

test("a refusal of the server's is one only with its own status and fields", () => {
  const clash = { a: { part: 1, visit: 1 }, b: { part: 1, visit: 2 }, error: "clash", minute: 650, rule: "same", version: 4 };
  assert.equal(get("visits/9", 404, { error: "visit", version: 3 }).is, "refused");
  assert.equal(get("visits/9", 404, { error: "visit" }).cause, "missing");
  assert.equal(readReply({ method: "POST", target: "commits" }, { status: 422, text: JSON.stringify(clash) }).is, "refused");
  assert.equal(readReply({ method: "POST", target: "commits" }, { status: 409, text: JSON.stringify(clash) }).is, "trouble");
  assert.equal(readReply({ method: "POST", target: "commits" }, { status: 422, text: JSON.stringify({ ...clash, rule: "near" }) }).is, "trouble");
});

test("every reply of the example sessions is the server's", () => {
  const seen = {};
  for (const session of sessions()) {
    for (const { asked, reply } of exchangesOf(session)) {
      if (reply.status === 200 && kindOf(asked.method, asked.target) === null) continue;
      const found = readReply(asked, reply);
      assert.equal(found.is, reply.status === 200 ? "ok" : "refused", `${session}: ${asked.method} ${asked.target}: ${found.words} ${reply.text}`);
      const word = found.body.error ?? kindOf(asked.method, asked.target);
      seen[word] = (seen[word] ?? 0) + 1;
    }
  }
  for (const word of ["added", "airport", "cancel", "chart", "committed", "day", "entry", "feed", "message", "plan", "report", "unplaced", "version", "visit",
    "ahead", "clash", "cut", "gone", "join", "json", "mvt", "name", "onblock", "overtaken", "part", "route", "stand", "time", "times", "type", "unfit", "unknown"]) {
    assert.ok(seen[word] > 0, `no reply has ${word}: ${JSON.stringify(seen)}`);
  }
});

test("a target has its kind, and the asking never ends", () => {
  const rows = [["GET", "day/12", "day"], ["GET", "/version", "version"], ["POST", "visits", "added"], ["GET", "visits/4", "visit"], ["GET", "stands", null], ["POST", "version", null]];
  for (const [method, target, kind] of rows) assert.equal(kindOf(method, target), kind);
  assert.deepEqual([1, 2, 3, 4, 5, 6, 1000].map(retrySeconds), [1, 1, 2, 3, 5, 5, 5]);
  assert.ok(isAnswer({ is: "refused" }) && !isAnswer({ is: "trouble" }));
});
