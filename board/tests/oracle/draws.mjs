// Drawn airports and visits, by a seed: halves, pairs, objects, buffers and types that fold their wing tips, close enough to be in each other's way.

/** Draws numbers: `below(n)` from 0 up to n, `between(a, b)` with both, `one(list)`, and `chance(percent)`. */
export function drawsOf(seed) {
  let state = seed >>> 0;
  const below = (count) => {
    state = (state + 0x6d2b79f5) >>> 0;
    let mixed = Math.imul(state ^ (state >>> 15), state | 1);
    mixed ^= mixed + Math.imul(mixed ^ (mixed >>> 7), mixed | 61);
    return ((mixed ^ (mixed >>> 14)) >>> 0) % count;
  };
  return {
    below,
    between: (least, most) => least + below(most - least + 1),
    one: (list) => list[below(list.length)],
    chance: (percent) => below(100) < percent,
  };
}

const FIRST_DAYS = ["2026-07-01", "2028-02-28", "2026-12-30", "2027-03-31"];
const TYPES = [
  ["A320", 3580, 40, 3580, 0], ["AT76", 2705, 25, 2705, 0], ["B190", 1767, 20, 1767, 0], ["C172", 1100, 15, 1100, 0], ["A332", 6030, 75, 6030, 0],
  ["B77W", 6480, 60, 6480, 0], ["A388", 7975, 90, 7975, 0], ["B779", 7175, 60, 6485, 5], ["FLD1", 7900, 40, 5000, 20], ["FLD2", 6490, 40, 3590, 12],
  ["FLD3", 5300, 30, 2300, 60], ["FLD4", 3600, 30, 1499, 0],
];
const LETTERS = "ABCDEF";

// A frontage of stands, of which some are halves of the one before.
function frontageOf(draws, name, count) {
  const stands = [];
  let centre = draws.between(2500, 6000);
  while (stands.length < count) {
    const number = stands.length + 1;
    const whole = { name: `${name}${number}`, frontage: name, centre, letter: draws.one("CCDEEFF"), buffer: draws.one([0, 5, 10, 10, 15, 30]) };
    stands.push(whole);
    if (draws.chance(35)) {
      for (const [side, by] of [["L", -draws.between(1200, 2200)], ["R", draws.between(1200, 2200)]]) {
        stands.push({ ...whole, name: `${whole.name}${side}`, centre: Math.max(0, centre + by), letter: draws.one("BCC"), half_of: whole.name });
      }
    }
    centre += draws.between(3500, 8500);
  }
  const objects = [...Array(draws.below(3))].map(() => draws.between(0, centre));
  return { frontage: { name, objects }, stands };
}

/** The two files of a drawn airport. */
export function airportOf(draws) {
  const fronts = ["P", "Q", "R"].map((name) => frontageOf(draws, name, draws.between(4, 6)));
  const stands = fronts.flatMap((it) => it.stands);
  const pairs = [...Array(draws.between(4, 10))].map(() => {
    const [a, b] = [draws.one(stands), draws.one(stands)];
    return { a: a.name, b: b.name, la: draws.one(LETTERS), lb: draws.one("ABCD") };
  }).filter(({ a, b }) => a !== b);
  const value = (it) => (Array.isArray(it) ? `[${it.join(", ")}]` : typeof it === "string" ? `"${it}"` : it);
  const table = (it) => `{ ${Object.entries(it).map(([key, said]) => `${key} = ${value(said)}`).join(", ")} }`;
  const list = (key, tables) => `${key} = [\n${tables.map((it) => `  ${table(it)},\n`).join("")}]\n`;
  const head = { station: "FLD", first_day: draws.one(FIRST_DAYS), days: 3, taxi_in: draws.between(0, 12), tow: draws.between(1, 30) };
  const airport = [
    list("frontage", fronts.map((it) => it.frontage)), list("stand", stands), list("pair", pairs), "[airport]\n",
    ...Object.entries(head).map(([key, said]) => `${key} = ${value(said)}\n`),
  ].join("");
  return { airport, types: ["type,span,least,parked,fold", ...TYPES.map((it) => it.join(","))].map((line) => `${line}\n`).join("") };
}

/** A visit to be added, which lies in the plan of three days. */
export function visitOf(draws, number) {
  const [type, , least] = draws.one(TYPES);
  const on = draws.below(3 * 1440 - least);
  const off = Math.min(3 * 1440, on + least + draws.below(draws.chance(20) ? 1500 : 400));
  const day = Math.floor(on / 1440) + 1;
  const flight = (letters) => (draws.chance(75) ? { flight: `${letters}${draws.between(1, 60)}`, day: Math.max(0, day - draws.below(2)) } : null);
  return { name: `V-${number}`, type, class: draws.below(10), on, off, arr: flight("LH"), dep: flight("9X") };
}
