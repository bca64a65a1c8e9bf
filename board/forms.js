// Whether a reply is the server's (docs/reference/http.md), and in words what it is where it is not: a page of a proxy, a body that is cut short,
// another status, or none at all. Everything that comes from outside is tested here once; the other modules rely on it.

/**
 * @typedef {{status: number, text?: string, failed?: "slow" | "nobody" | "cut" | "redirect", seconds?: number}} Got  what fetch gave: a status
 *   and a text, or status 0 and why there is none
 * @typedef {"login" | "forbidden" | "missing" | "gateway" | "slow" | "nobody" | "cut" | "redirect" | "foreign" | "status" | "disk" | "memory"} Cause
 * @typedef {{is: "ok", body: any} | {is: "refused", status: number, body: any} |
 *   {is: "trouble", cause: Cause, words: string, mayBeTaken: boolean}} Outcome
 *   `mayBeTaken`: whether a command that was sent may be in the plan anyway
 * @typedef {(value: any) => string | null} Form  what is wrong with a value, to be read after its name; or null
 */

// ---------------------------------------------------------------- Forms of values

const MOST = 2 ** 32 - 1;

/** @type {Form} */
const whole = (value) => (Number.isInteger(value) && value >= 0 && value <= MOST ? null : " is not a whole number");
/** @type {Form} */
const words = (value) => (typeof value === "string" ? null : " is not a text");
/** @type {Form} */
const truth = (value) => (typeof value === "boolean" ? null : " is neither true nor false");
const between = (least, most, what) => (value) => (Number.isInteger(value) && value >= least && value <= most ? null : ` is not ${what}`);
const among = (...known) => (value) => (known.includes(value) ? null : ` is none of ${known.join(", ")}`);
const orNull = (form) => (value) => (value === null ? null : form(value));
/** @type {Form} */
const date = (value) => (/^\d{4}-\d\d-\d\d$/.test(value) && Number.isFinite(Date.parse(value)) ? null : " is not a date");
const matching = (pattern, what) => (value) => (typeof value === "string" && pattern.test(value) ? null : ` is not ${what}`);

function listOf(form, least = 0, most = Infinity) {
  return (value) => {
    if (!Array.isArray(value)) return " is not a list";
    if (value.length < least || value.length > most) return ` has ${value.length} entries`;
    for (let place = 0; place < value.length; place++) {
      const fault = form(value[place]);
      if (fault !== null) return `[${place}]${fault}`;
    }
    return null;
  };
}

// A record of these fields, which together pass a test; others are passed over.
function record(fields, test = () => null) {
  const names = Object.keys(fields);
  const forms = Object.values(fields);
  return (value) => {
    if (typeof value !== "object" || value === null || Array.isArray(value)) return " is not an object";
    for (let place = 0; place < names.length; place++) {
      const it = value[names[place]];
      const fault = it === undefined ? " is missing" : forms[place](it);
      if (fault !== null) return `.${names[place]}${fault}`;
    }
    return test(value);
  };
}

// ---------------------------------------------------------------- Forms of bodies

const NAME = matching(/^[A-Z0-9]{1,6}$/, "a name");
const LETTER = among("A", "B", "C", "D", "E", "F");
const RULE = among("same", "split", "clearance", "pair");
const FLIGHT = record({ day: whole, flight: words });
const PART_ID = record({ part: whole, visit: whole });
const BUMP = record({ blocker: PART_ID, entry: whole, minute: whole, rule: RULE, stand: NAME });
const lasts = ({ from, to }) => (from < to ? null : " ends before it begins");
const PART = record({ actual: truth, bump: orNull(BUMP), from: whole, stand: orNull(NAME), to: whole }, lasts);
const VISIT_FIELDS = {
  arr: orNull(FLIGHT), class: whole, dep: orNull(FLIGHT), edited: whole, name: words, off: whole, on: whole, parts: listOf(PART, 1, 3),
  state: among("expected", "onblock", "gone", "cancelled"), type: words, visit: whole,
};
const SPAN = between(1, 7999, "a wing span");
const TYPE = record({ fold: whole, least: whole, letter: LETTER, name: words, parked: SPAN, span: SPAN });
const STAND = record({ buffer: whole, centre: whole, frontage: NAME, half_of: orNull(NAME), letter: LETTER, name: NAME });

const AIRPORT = record({
  days: between(1, 28, "1 to 28"), first_day: date, frontages: listOf(record({ name: NAME, objects: listOf(whole) })),
  pairs: listOf(record({ a: NAME, b: NAME, la: LETTER, lb: LETTER })), stands: listOf(STAND, 1), station: matching(/^[A-Z]{3}$/, "a station"),
  taxi_in: whole, tow: whole, types: listOf(TYPE, 1), version: whole,
}, namesFault);

// Whether each name of the airport is one that it has.
function namesFault({ frontages, pairs, stands }) {
  const has = (list) => new Set(list.map(({ name }) => name));
  const [fronts, places] = [has(frontages), has(stands)];
  const stray = [...stands.map((it) => it.half_of).filter((it) => it !== null), ...pairs.flatMap(({ a, b }) => [a, b])].find((it) => !places.has(it));
  const front = stands.map((it) => it.frontage).find((it) => !fronts.has(it));
  if (stray !== undefined) return `.stands has no ${stray}`;
  return front === undefined ? null : `.frontages has no ${front}`;
}

const chart = (value) =>
  (/^STAND CHART [A-Z]{3} \d{4}-\d\d-\d\d VERSION \d+\n/.test(value) && value.endsWith("\nEND\n") ? null : " is not a whole chart");

const ON_PART = { part: whole, visit: whole };
const EDITS = { put: record({ ...ON_PART, stand: NAME }), lift: record(ON_PART), cut: record({ ...ON_PART, at: whole }), join: record(ON_PART) };

// An edit as a commit has it: one kind, and what it says.
function edit(value) {
  const [[kind, said] = [], ...more] = Object.entries(value ?? {});
  if (more.length > 0 || !Object.hasOwn(EDITS, kind)) return ` is none of ${Object.keys(EDITS).join(", ")}`;
  const fault = EDITS[kind](said);
  return fault === null ? null : `.${kind}${fault}`;
}

/** The forms of bodies by the kind of what was asked, and of a planner's file. @type {Record<string, Form>} */
export const FORMS = {
  airport: AIRPORT,
  chart,
  day: record({ version: whole, visits: listOf(record(VISIT_FIELDS)) }),
  visit: record({ ...VISIT_FIELDS, version: whole }),
  plan: record({ version: whole, parts: listOf(record({ actual: truth, from: whole, part: whole, stand: NAME, to: whole, visit: whole }, lasts)) }),
  unplaced: record({ version: whole, parts: listOf(record({ bump: orNull(BUMP), from: whole, part: whole, to: whole, visit: whole }, lasts)) }),
  version: record({ version: whole }),
  entry: record({ call: whole, desk: orNull(words), entry: whole, kind: among("visit", "commit", "message", "report", "cancel"), version: whole }),
  feed: record({
    version: whole,
    bumps: listOf(record({ blocker: PART_ID, class: whole, entry: whole, minute: whole, part: PART_ID, rule: RULE, stand: NAME })),
  }),
  added: record({ version: whole, visit: whole }),
  committed: record({ version: whole }),
  message: record({ bumped: listOf(PART_ID), version: whole, visit: orNull(whole) }),
  report: record({ bumped: listOf(PART_ID), version: whole }),
  cancel: record({ version: whole }),
  planfile: record({ base: whole, drafts: listOf(whole, 1), edits: listOf(edit, 1), first_day: date, station: words }),
};

const ROUTES = [
  ["GET", /^airport$/, "airport"], ["GET", /^day\/\d+$/, "day"], ["GET", /^visits\/\d+$/, "visit"], ["GET", /^plan\/\d+$/, "plan"],
  ["GET", /^unplaced$/, "unplaced"], ["GET", /^version$/, "version"], ["GET", /^entries\/\d+$/, "entry"], ["GET", /^chart\/\d+$/, "chart"],
  ["GET", /^feeds\/[A-Z]+\/\d+$/, "feed"], ["POST", /^visits$/, "added"], ["POST", /^commits$/, "committed"], ["POST", /^mvt$/, "message"],
  ["POST", /^reports$/, "report"], ["POST", /^cancels$/, "cancel"],
];

/**
 * The kind of what is asked at a target below the page's address; or null.
 * @param {string} method @param {string} target such as "day/3"
 */
export const kindOf = (method, target) =>
  ROUTES.find(([of, pattern]) => of === method && pattern.test(target.replace(/^\//, "")))?.[2] ?? null;

/**
 * What is wrong with a body of this kind; or null. With an airport, its visits have types and stands of it.
 * @param {string} kind @param {any} body @param {import("./rules.js").Model | null} [model]
 */
export function formFault(kind, body, model = null) {
  const fault = FORMS[kind](body);
  if (fault !== null) return `${kind}${fault}`;
  if (model === null) return null;
  const visits = kind === "day" ? body.visits : kind === "visit" ? [body] : [];
  return visits.map((visit) => strayFault(model, visit)).find((it) => it !== null) ?? null;
}

function strayFault(model, { name, parts, type }) {
  if (!model.typeOf.has(type)) return `the airport has no type ${type}, which visit ${name} has`;
  const stray = parts.find(({ stand }) => stand !== null && !model.standOf.has(stand));
  return stray === undefined ? null : `the airport has no stand ${stray.stand}, which visit ${name} is on`;
}

// ---------------------------------------------------------------- Refusals

const VERSION = { version: whole };
const OF_EDIT = { edit: whole, version: whole };
const OBJECT = record({ object: whole });
const byOf = (value) => (value === "letter" ? null : OBJECT(value));

// The server's refusals: the status with which each word comes, and the fields beside it. Some words come with a commit, which names an edit,
// and with a report or a cancel, which names none.
const REFUSALS = {
  head: [400], seen: [400], desk: [400], json: [400], mvt: [400, { fault: among("long", "identifier", "flight", "element", "twice") }],
  route: [404], day: [404], visit: [404, VERSION], entry: [404, VERSION], watch: [404, VERSION], method: [405], ahead: [409, VERSION],
  overtaken: [409, { ...OF_EDIT, edited: whole, visit: whole }], name: [409, { ...VERSION, visit: whole }], full: [409, VERSION],
  length: [411], large: [413], type: [422], stand: [422], times: [422], unknown: [422, VERSION], gone: [422, VERSION], part: [422, VERSION],
  onblock: [422, VERSION], time: [422, VERSION], cut: [422, OF_EDIT], join: [422, OF_EDIT], unfit: [422, { ...OF_EDIT, by: byOf }],
  clash: [422, { ...VERSION, a: PART_ID, b: PART_ID, minute: whole, rule: RULE }], encoding: [501], keeper: [503], memory: [507],
};

// Whether a body is a refusal of the server's with this status.
function isRefusal(status, body) {
  if (typeof body?.error !== "string" || !Object.hasOwn(REFUSALS, body.error)) return false;
  const [of, fields = {}] = REFUSALS[body.error];
  return of === status && record(fields)(body) === null;
}

// ---------------------------------------------------------------- Replies

const parsed = (text) => {
  try {
    return JSON.parse(text);
  } catch {
    return undefined;
  }
};

const TROUBLES = {
  login: () => "Not allowed: log in again (401).",
  forbidden: () => "Not allowed: this user, or this page's address, may not ask this (403).",
  missing: () => "Not found: at this address there is no apron server (404).",
  gateway: ({ status }) => (status === 504 ? "The proxy is there, but the server behind it is too slow (504)."
    : `The proxy is there, but not the server behind it (${status}).`),
  slow: ({ seconds }) => `The server is too slow: no reply within ${seconds ?? "some"} seconds.`,
  nobody: () => "Nobody is there: no connection to the server.",
  cut: () => "The reply was cut short on its way.",
  redirect: () => "The answer leads to another address: perhaps you have to log in again.",
  foreign: ({ fault }) => `The reply is not the apron server's: ${fault}.`,
  status: ({ status }) => `The reply is not the apron server's: it has the status ${status}.`,
  disk: () => "The server can't keep commands: its disk refuses them (503).",
  memory: () => "The server's memory has run out (507).",
};

// What was refused on its way to the server is not in the plan, nor is what the server had no memory for.
const isTurnedAway = (cause, { status = 0 }) => cause === "redirect" || cause === "memory" || (status >= 400 && status < 500);

/** @returns {Outcome} */
const trouble = (cause, about = {}) => ({ is: "trouble", cause, words: TROUBLES[cause](about), mayBeTaken: !isTurnedAway(cause, about) });

const STATUSES = { 401: "login", 403: "forbidden", 404: "missing", 502: "gateway", 503: "gateway", 504: "gateway" };

/**
 * What came of a request: the checked body of a reply 200, a refusal of the server's, or what is wrong, in words.
 * @param {{method: string, target: string}} asked @param {Got} got @param {import("./rules.js").Model | null} [model]
 * @returns {Outcome}
 */
export function readReply({ method, target }, got, model = null) {
  const { status, text = "" } = got;
  if (status === 0) return trouble(got.failed ?? "nobody", got);
  const kind = kindOf(method, target);
  const body = kind === "chart" && status === 200 ? text : parsed(text);
  if (status === 200) return body === undefined ? trouble(...unread(text)) : checked(kind, body, model);
  if (!isRefusal(status, body)) return trouble(STATUSES[status] ?? "status", { status });
  if (body.error === "keeper") return trouble("disk");
  return body.error === "memory" ? trouble("memory") : { is: "refused", status, body };
}

// A text that begins as the server's do, and is none, was cut short.
const unread = (text) => (/^\{"/.test(text) ? ["cut"] : ["foreign", { fault: /^\s*</.test(text) ? "it is a page" : "it is not JSON" }]);

function checked(kind, body, model) {
  const fault = formFault(kind, body, model);
  return fault === null ? { is: "ok", body } : trouble("foreign", { fault });
}

/**
 * Whether an outcome says if a command was taken.
 * @param {Outcome} outcome
 */
export const isAnswer = ({ is }) => is !== "trouble";

/**
 * The seconds until a trouble is asked about again: the asking slows down, and never ends.
 * @param {number} turn  how often it was asked in vain, from 1
 */
export const retrySeconds = (turn) => [1, 1, 2, 3, 5][turn - 1] ?? 5;
