// When the page is drawn: before a frame, and without one.

import assert from "node:assert/strict";
import { test } from "node:test";
import { drawn, drawnBy, redraw } from "../redraw.js";

const frames = [];
let drawings = 0;
globalThis.document = { hidden: false };
globalThis.requestAnimationFrame = (draw) => frames.push(draw);
globalThis.cancelAnimationFrame = (number) => { frames[number - 1] = () => {}; };
drawnBy(() => { drawings += 1; });

test("what changed before a frame is drawn once, in it", async () => {
  drawings = 0;
  redraw();
  const done = drawn();
  assert.equal(drawings, 0);
  frames.at(-1)();
  await done;
  assert.equal(drawings, 1);
});

test("a hidden page is drawn without a frame", async () => {
  drawings = 0;
  document.hidden = true;
  await drawn();
  assert.equal(drawings, 1);
  document.hidden = false;
});

test("a page that is hidden before its frame comes is drawn all the same, and once", async () => {
  drawings = 0;
  const done = drawn();
  document.hidden = true;
  await done;
  frames.at(-1)();
  assert.equal(drawings, 1);
  document.hidden = false;
});
