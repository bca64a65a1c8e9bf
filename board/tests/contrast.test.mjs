// The colours of the style, in both themes: texts have a contrast of at least 4.5 to 1 to each ground that they lie on, and marks 3 to 1 (WCAG
// 2.1). What is translucent is blended with what is below it.

import assert from "node:assert/strict";
import { readFileSync } from "node:fs";
import { test } from "node:test";

const read = (name) => readFileSync(new URL(`../${name}`, import.meta.url), "utf8");
const SHEETS = ["board.css", "chart.css", "side.css"].map(read).join("\n");
const [ROOT] = /:root \{[^}]*\}/.exec(SHEETS);
const THEMES = ["day", "night"];

// A colour as [red, green, blue, opacity].
function colourOf(text) {
  const hex = /^#(..)(..)(..)$/.exec(text);
  if (hex !== null) return [...hex.slice(1).map((part) => parseInt(part, 16)), 1];
  const [, red, green, blue, percent] = /^rgb\((\d+) (\d+) (\d+) \/ (\d+)%\)$/.exec(text);
  return [Number(red), Number(green), Number(blue), Number(percent) / 100];
}

// The colour tokens: for each name its colour by day and by night.
const TOKENS = new Map([...ROOT.matchAll(/--([a-z-]+): (light-dark\((#[^,]+|rgb\([^)]*\)), (#[^,)]+|rgb\([^)]*\))\)|#[0-9a-f]{6});/g)]
  .map(([, name, plain, day, night]) => [name, day === undefined ? [plain, plain] : [day, night]].flat())
  .map(([name, ...both]) => [name, both.map(colourOf)]));

// What lies on what, from the bottom up: a token, perhaps with a share of it, as "panel + bad 12%".
function blended(layers, theme) {
  return layers.split(" + ").reduce((below, layer) => {
    const [name, share] = layer.split(" ");
    const [red, green, blue, opacity] = TOKENS.get(name)[theme];
    const part = share === undefined ? opacity : opacity * parseInt(share, 10) / 100;
    return [red, green, blue].map((it, at) => it * part + (below?.[at] ?? 0) * (1 - part));
  }, null);
}

const linear = (part) => (part / 255 <= 0.04045 ? part / 255 / 12.92 : ((part / 255 + 0.055) / 1.055) ** 2.4);
const light = ([red, green, blue]) => 0.2126 * linear(red) + 0.7152 * linear(green) + 0.0722 * linear(blue);

function contrast(front, ground, theme) {
  const [one, other] = [light(blended(`${ground} + ${front}`, theme)), light(blended(ground, theme))];
  return (Math.max(one, other) + 0.05) / (Math.min(one, other) + 0.05);
}

const PAGE = ["bg", "panel", "raised"];
// The rows of the chart: as they are, and where a part would rather stand.
const ROW = ["bg", "preferred"];
// The lists on the side: plain, chosen, just changed, and red.
const LIST = ["panel", "raised", "panel + mark 14%", "panel + bad 12%"];
const EXPECTED = ["plan-fill", "plan-fill + amber 26%"];
const OVERDUE = ["late-fill", "late-stripe"];
// Where the picked part would stand: on a free row, and over what keeps it off.
const FITS = ROW.map((it) => `${it} + good 22%`);
const OFF = [...ROW, "plan-fill", "there-fill", "late-fill"].map((it) => `${it} + bg 88%`);
// How much of a time's colour is there, beside the name of a bar that is expected or on block.
const TIME = "90%";

const TEXTS = {
  text: [...PAGE, ...LIST, "preferred"], dim: [...PAGE, ...LIST], faint: [...PAGE, "preferred"],
  good: ["panel"], bad: LIST, amber: LIST, own: ["panel"], mark: ["panel"],
  "plan-text": EXPECTED, [`plan-text ${TIME}`]: EXPECTED, "there-text": ["there-fill"], [`there-text ${TIME}`]: ["there-fill"],
  "late-text": OVERDUE, "gone-text": ROW,
  "alarm-text": ["alarm"], "now-text": ["now"], "mark-text": ["mark"], "early-text": ["early"], early: ROW,
};

const MARKS = {
  edge: PAGE, "plan-edge": [...ROW, "plan-fill"], "there-fill": ROW, "there-edge": ROW, "late-fill": ROW, "gone-fill": ROW, "buffer-dot": ROW.map((it) => `${it} + buffer`),
  hatch: [...ROW, ...OFF], shut: ROW, faint: ROW, now: ROW, early: ["plan-fill"], amber: [...ROW, "plan-fill", "panel"], alarm: [...ROW, "plan-fill"],
  good: [...ROW, ...PAGE, ...FITS], bad: [...ROW, "panel"], own: [...ROW, "plan-fill", "panel"], mark: [...ROW, ...PAGE], text: [...ROW, ...PAGE], dim: PAGE,
};

// Grounds, and lines that only part what is apart anyway.
const OTHERS = ["bg", "panel", "raised", "preferred", "plan-fill", "late-stripe", "buffer", "shade", "line", "hour"];

function tooLow(table, least) {
  return Object.entries(table).flatMap(([front, grounds]) => grounds.flatMap((ground) => THEMES.flatMap((theme, place) => {
    const ratio = contrast(front, ground, place);
    return ratio < least ? [`${theme}: ${front} on ${ground} has ${ratio.toFixed(2)}`] : [];
  })));
}

test("texts have a contrast of 4.5 to 1", () => assert.deepEqual(tooLow(TEXTS, 4.5), []));
test("marks have a contrast of 3 to 1", () => assert.deepEqual(tooLow(MARKS, 3), []));

test("each colour of the style is one of those that are tried", () => {
  const known = new Set([...Object.keys(TEXTS), ...Object.keys(MARKS), ...OTHERS]);
  assert.deepEqual([...TOKENS.keys()].filter((name) => !known.has(name)), []);
  const used = [...SHEETS.matchAll(/[;{ ]color: ([^;}]+)/g)].map(([, it]) => it).filter((it) => !["inherit", "transparent"].includes(it));
  assert.deepEqual(used.filter((it) => !Object.hasOwn(TEXTS, /^var\(--([a-z-]+)\)$/.exec(it)?.[1] ?? "")), []);
  assert.deepEqual([...SHEETS.replace(ROOT, "").matchAll(/#[0-9a-f]{3,8}(?=[;,) ])|rgb\(/g)].map(([it]) => it), []);
  const shares = [...SHEETS.matchAll(/var\(--([a-z-]+)\) (\d+%), transparent/g)].map(([, name, share]) => `${name} ${share}`);
  const tried = JSON.stringify([TEXTS, MARKS]);
  assert.deepEqual(shares.filter((it) => !tried.includes(it)), []);
});
