// The server's clock by the Date fields of its replies.

import assert from "node:assert/strict";
import { test } from "node:test";
import { heard, instantOf, newClock, skewOf, skewWords, speedOf } from "../clock.js";

const BEGIN = Date.parse("2026-03-27T10:20:00Z");

// A clock that has heard a reply a second, from a server whose clock is ahead by `ahead` milliseconds and runs `speed` times as fast.
function listened(ahead, { speed = 1, training = false, seconds = 20, clock = newClock(), at = BEGIN } = {}) {
  let heardOf = clock;
  for (let passed = 0; passed < seconds * 1000; passed += 1000) {
    const [sent, got] = [at + passed, at + passed + 120];
    const server = at + ahead + (passed + 60) * speed;
    const date = new Date(Math.floor(server / 1000) * 1000).toUTCString();
    heardOf = heard(heardOf, { date, sent, got, training });
  }
  return { clock: heardOf, now: at + (seconds - 1) * 1000 + 120 };
}

test("a clock that is right to half a minute is not spoken of", () => {
  const { clock, now } = listened(300);
  assert.ok(Math.abs(skewOf(clock, now) + 300) < 600);
  assert.equal(skewWords(clock, now), null);
  assert.deepEqual([instantOf(newClock(), BEGIN), skewWords(newClock(), BEGIN)], [BEGIN, null]);
});

test("a clock that is an hour wrong is said, and the server's is used", () => {
  const fast = listened(-3600000);
  assert.match(skewWords(fast.clock, fast.now), /60 minutes fast: the server's is used/);
  assert.ok(Math.abs(instantOf(fast.clock, fast.now) - (fast.now - 3600000)) < 1000);
  const slow = listened(45000);
  assert.match(skewWords(slow.clock, slow.now), /4[45] seconds slow/);
  assert.equal(skewWords(listened(-29000).clock, BEGIN), null);
});

test("a clock that is set while the page is open counts from then on", () => {
  const before = listened(0);
  const after = listened(-7200000, { clock: before.clock, at: before.now + 1000, seconds: 2 });
  assert.match(skewWords(after.clock, after.now), /2 hours fast|120 minutes fast/);
});

test("in training a clock that runs faster is followed without a word", () => {
  const { clock, now } = listened(5000, { speed: 20, training: true });
  assert.ok(Math.abs(speedOf(clock) - 20) < 0.5, String(speedOf(clock)));
  assert.equal(skewWords(clock, now), null);
  const ahead = (at) => BEGIN + 5000 + (at - BEGIN) * 20;
  assert.ok(Math.abs(instantOf(clock, now) - ahead(now)) < 2000);
  assert.ok(Math.abs(instantOf(clock, now + 1000) - ahead(now + 1000)) < 2500);
  assert.equal(speedOf(listened(5000, { training: true }).clock), 1);
  assert.equal(speedOf(listened(0, { speed: 20 }).clock), 1);
});

test("a reply without a Date, or with a strange one, says nothing", () => {
  const clock = newClock();
  for (const date of [null, "", "yesterday"]) assert.equal(heard(clock, { date, sent: 0, got: 1 }), clock);
});
