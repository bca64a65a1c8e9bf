// Preferences, against docs/reference/planner.md.

import assert from "node:assert/strict";
import { test } from "node:test";
import { airlineOf, costsOf, preferredOf, readPreferences } from "../preferences.js";
import { at, demo } from "./plans.mjs";

const HEAD = "stand,kind,terminal,area,airlines,types,cost";
const read = (...lines) => readPreferences([HEAD, ...lines].join("\n"), demo);
const names = (places) => [...places].map((place) => demo.stands[place].name);

// N1 and N2 are meant for LH at terminal 1, N3 serves all at terminal 2, S1 is for two small types, S4 for freight.
const FILE = ["N1,contact,1,schengen,LH,,2", "N2,contact,1,,LH CLH,,2", "N3,contact,2,other,,,2", "S1,remote,,,,AT76 B190,10", "S2,remote,,,,,10", "S4,cargo,,,CLX FX,,30"];
const { records } = read(...FILE);
const costs = (airline, type) => {
  const all = costsOf(demo, records, airline, type);
  return Object.fromEntries(["N1", "N2", "N3", "S1", "S2", "S4", "S5"].map((name) => [name, all[at(name)]]));
};

test("a part costs a stand's cost once for each column that does not suit it, and nothing on a stand without a record", () => {
  assert.deepEqual(costs("LH", "A320"), { N1: 0, N2: 0, N3: 2, S1: 20, S2: 10, S4: 60, S5: 0 });
  assert.deepEqual(costs("XY", "A320"), { N1: 2, N2: 2, N3: 0, S1: 20, S2: 10, S4: 60, S5: 0 });
  assert.deepEqual(costs("CLX", "A320"), { N1: 4, N2: 4, N3: 2, S1: 20, S2: 10, S4: 0, S5: 0 });
});

test("a part is at home on the stands that are meant for it and that its type fits", () => {
  assert.deepEqual(costs("XY", "AT76"), { N1: 4, N2: 4, N3: 2, S1: 0, S2: 0, S4: 60, S5: 0 });
  assert.deepEqual(costs("", "B190"), { N1: 4, N2: 4, N3: 2, S1: 0, S2: 0, S4: 60, S5: 0 });
  assert.deepEqual(costs("LH", "A388"), { N1: null, N2: null, N3: null, S1: null, S2: null, S4: null, S5: null });
});

test("a part would rather be on the stands that cost least, and nowhere where all cost the same", () => {
  assert.deepEqual(names(preferredOf([2, 0, null, 0])), ["N2", "S1"]);
  assert.deepEqual(names(preferredOf([null, 3, 5, 3])), ["N2", "S1"]);
  for (const same of [[0, 0, null], [], [null, null]]) assert.equal(preferredOf(same).size, 0);
});

test("an airline is two characters, or three before a third letter", () => {
  for (const [flight, airline] of [["LH123", "LH"], ["DLH4K", "DLH"], ["5X155", "5X"], ["X3", "X3"]]) assert.equal(airlineOf(flight), airline);
});

test("a file is read with a byte order mark, CR LF and empty lines", () => {
  const text = `\uFEFF${HEAD}\r\n\r\nN1,contact,1,schengen,LH,,2\r\n`;
  assert.deepEqual(readPreferences(text, demo).records, [records[0]]);
});

test("the first fault is told with its line, its column and the value", () => {
  const rows = [
    [["N1,contact,1,schengen,LH,,2", "N2,gate,,,,,1"], "3:4: kind 'gate' is none of contact, remote, cargo"],
    [["Z9,contact,,,,,1"], "2:1: stand 'Z9' is no stand of the airport"],
    [["N1,contact,t1,,,,1"], "2:12: terminal 't1' is not up to 6 capitals or digits"],
    [["N1,contact,,eu,,,1"], "2:13: area 'eu' is neither empty nor schengen nor other"],
    [["N1,contact,,,LH  FX,,1"], "2:14: airlines 'LH  FX' has '', which is no airline: three capitals, or two capitals or digits, not both digits"],
    [["N1,contact,,,,A32,1"], "2:15: types 'A32' has 'A32', which is no type of the airport"],
    [["N1,contact,,,,,1000"], "2:16: cost '1000' is not a number of 1 to 3 digits"],
    [["N1,contact,,,,,1", "", "N1,remote,,,,,1"], "4:1: stand 'N1' is in line 2 already"],
    [["N1,contact"], "2:1: it has 2 fields, and not 7: 'N1,contact'"],
  ];
  for (const [lines, fault] of rows) assert.equal(read(...lines).fault, fault);
  assert.equal(readPreferences("stand,cost\n", demo).fault, `1:1: the first line is 'stand,cost', and not '${HEAD}'`);
});
