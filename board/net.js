// Requests to the server that serves this page. Reads go one after another, and so do commands: at most two connections. Each reply is
// checked for its form before anybody sees it (forms.js), and tells the server's clock (clock.js).

import { heard, newClock } from "./clock.js";
import { readReply } from "./forms.js";
import { model } from "./model.js";
import { address } from "./settings.js";
import { HERE, keep, read } from "./store.js";

const READ_PATIENCE = 20000;
const COMMAND_PATIENCE = 30000;
const SLOW = 3000;

const state = {
  reads: Promise.resolve(),
  commands: Promise.resolve(),
  seen: read(sessionStorage, "seen", 0),
  isTraining: false,
  clock: newClock(),
  asked: null,
  took: 0,
};

export const seen = () => state.seen;
export const clockOf = () => state.clock;

// Whether this page may change the plan: a wall never, and a page with a minute of its own only at a server that says it is for training.
export const maySend = () => !address.isWall && (address.now === null || state.isTraining);
export const isTraining = () => state.isTraining;

// The seconds for which the reply to a read is awaited, or for which the last one was, if that is slow; else 0.
export function lateSeconds() {
  const waited = Math.max(state.took, state.asked === null ? 0 : performance.now() - state.asked);
  return waited < SLOW ? 0 : Math.round(waited / 1000);
}

// Asks the server. What comes is an outcome of forms.js.
export function ask(method, target, { body, desk } = {}) {
  const lane = method === "GET" ? "reads" : "commands";
  const asked = state[lane].then(() => exchange(method, target, body, desk));
  state[lane] = asked.catch(() => null);
  return asked;
}

export const post = (target, said, desk) => ask("POST", target, { body: JSON.stringify(said), desk });
export const pause = (time) => new Promise((done) => setTimeout(done, time));

async function exchange(method, target, body, desk) {
  if (method !== "GET" && !maySend()) return { is: "trouble", cause: "kept", words: "This page sends nothing.", mayBeTaken: false };
  const headers = { "X-Seen": String(state.seen) };
  if (desk) headers["X-Desk"] = desk;
  const isRead = method === "GET";
  if (isRead) state.asked = performance.now();
  const got = await fetched(target, { method, body, headers, patience: isRead ? READ_PATIENCE : COMMAND_PATIENCE });
  if (isRead) Object.assign(state, { asked: null, took: performance.now() - state.asked });
  const outcome = readReply({ method, target }, got, model());
  if (outcome.is !== "trouble") learn(outcome, got);
  return outcome;
}

async function fetched(target, { method, body, headers, patience }) {
  const sent = Date.now();
  try {
    // The whole address: one with a user and a password in it could not be asked relative to itself.
    const got = await fetch(`${location.origin}${HERE}${target}`,
      { method, body, headers, cache: "no-store", redirect: "manual", signal: AbortSignal.timeout(patience) });
    if (got.type === "opaqueredirect") return { status: 0, failed: "redirect" };
    const head = Date.now();
    const text = await got.text().catch(() => null);
    if (text === null) return { status: 0, failed: "cut" };
    const field = (name) => got.headers.get(name);
    return { status: got.status, text, date: field("Date"), training: field("X-Training") === "yes", sent, got: head };
  } catch (fault) {
    const isSlow = fault.name === "TimeoutError" || fault.name === "AbortError";
    return { status: 0, failed: isSlow ? "slow" : "nobody", seconds: Math.round((Date.now() - sent) / 1000) };
  }
}

// The text of a file beside the page; null if there is none, and undefined while that is not known.
export function fileBeside(name) {
  const asked = state.reads.then(() => fetched(name, { method: "GET", headers: {}, patience: READ_PATIENCE }));
  state.reads = asked.catch(() => null);
  return asked.then(({ status, text }) => {
    if (status === 404) return null;
    return status === 200 && !/^\s*</.test(text) ? text : undefined;
  });
}

function learn({ body }, { date, training, sent, got }) {
  state.isTraining = training;
  state.clock = heard(state.clock, { date, sent, got, training });
  const number = body.error === "ahead" ? 0 : body.version ?? 0;
  if (number > state.seen) {
    state.seen = number;
    keep(sessionStorage, "seen", number);
  }
}

// Forgets what was seen: a person goes on from an older plan.
export function forgetSeen() {
  state.seen = 0;
  keep(sessionStorage, "seen", 0);
}
