// A plan that the program keeps, and the same plan as the page's modules have it.

import assert from "node:assert/strict";
import { readReply } from "../../forms.js";
import { modelOf } from "../../rules.js";
import { isListed } from "../../visits.js";

// A value as text, with its keys in order.
export const told = (value) => JSON.stringify(value, (_, it) =>
  (it !== null && typeof it === "object" && !Array.isArray(it) ? Object.fromEntries(Object.entries(it).sort()) : it));

/** Says what differs: what the page's modules have, and what the server says. */
export function same(mine, theirs, what) {
  if (told(mine) !== told(theirs)) assert.fail(`${what}: the page has ${told(mine)}, the server says ${told(theirs)}`);
}

export class World {
  visits = new Map();
  version = 0;
  tally = {};

  constructor(pipe) {
    this.pipe = pipe;
  }

  count(word) {
    this.tally[word] = (this.tally[word] ?? 0) + 1;
  }

  /** The reply to a request, which has to be of the server's form. */
  async ask(method, target, body, fields) {
    const outcome = readReply({ method, target }, await this.pipe.ask(method, target, body, fields), this.model ?? null);
    assert.notEqual(outcome.is, "trouble", `${method} /${target} ${told(body)}: ${outcome.words}`);
    if (outcome.body.version > this.version && method === "POST") this.version = outcome.body.version;
    return outcome;
  }

  async begin() {
    const { body } = await this.ask("GET", "airport");
    this.model = modelOf(body);
  }

  /** Reads visits from the server again, and compares them with what the page's modules expect of them. */
  async expect(numbers, expected, what) {
    for (const number of new Set(numbers)) {
      const { version: _, ...visit } = (await this.ask("GET", `visits/${number}`)).body;
      if (expected.has(number)) same(expected.get(number), visit, `${what}: visit ${number}`);
      this.visits.set(number, visit);
    }
  }

  /** Compares the days as the server lists them with the whole picture. */
  async compareDays() {
    for (let day = 1; day <= this.model.days; day++) {
      const { body } = await this.ask("GET", `day/${day}`);
      same([...this.listed(day)], body.visits, `day ${day}`);
    }
  }

  /** The visits that a day lists. */
  listed(day) {
    return [...this.visits.values()].filter((visit) => isListed(this.model, visit, day)).sort((one, other) => one.visit - other.visit);
  }
}
