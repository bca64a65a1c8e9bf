// The present minute, and minutes as people write them: UTC, and the local time of the chosen zone beside it. Minutes count from 00:00 UTC
// of the plan's first day.

import { instantOf } from "./clock.js";
import { DAY } from "./rules.js";
import { clockOf } from "./net.js";
import { address, settings } from "./settings.js";

const state = { zero: 0, days: 1, from: 0, to: 0 };

// The plan's first day and its count of days.
export function setPlan({ first_day: first, days }) {
  Object.assign(state, { zero: Date.parse(`${first}T00:00Z`), days });
}

// The minutes in sight: a time among them needs no date.
export const setSight = (from, to) => Object.assign(state, { from, to });

// Milliseconds since 1970: the address's own minute, or the server's clock.
export const instant = () => (address.now === null ? instantOf(clockOf(), Date.now()) : Date.parse(address.now));
export const nowMinute = () => Math.floor((instant() - state.zero) / 60000);
export const isInPlan = (minute) => minute >= 0 && minute < state.days * DAY;

const two = (number) => String(number).padStart(2, "0");

export function clock(minute) {
  const of = ((minute % DAY) + DAY) % DAY;
  return `${two(Math.floor(of / 60))}:${two(of % 60)}`;
}

export const dateOf = (minute) => new Date(state.zero + minute * 60000);
export const dayOf = (minute) => Math.floor(minute / DAY) + 1;
const writer = (options) => {
  const format = new Intl.DateTimeFormat("en-GB", { ...options, timeZone: "UTC" });
  return (minute) => format.format(dateOf(minute));
};
export const dayName = writer({ day: "numeric", month: "short" });
export const dayLong = writer({ weekday: "short", day: "numeric", month: "short", year: "numeric" });
export const dayShort = writer({ weekday: "short", day: "numeric", month: "short" });
export const isoOf = (minute) => dateOf(minute).toISOString().slice(0, 10);
export const minuteOfIso = (text) => Math.round((Date.parse(`${text}T00:00Z`) - state.zero) / 60000);

// A minute as a time, with its date where it is not in sight or the sight is longer than a day.
export function when(minute) {
  const isPlain = minute >= state.from && minute <= state.to && state.to - state.from <= DAY;
  return isPlain ? clock(minute) : `${dayName(minute)} ${clock(minute)}`;
}

export function stay({ from, to }) {
  const end = dayOf(from) === dayOf(to) || to - from < DAY ? clock(to) : when(to);
  return `${when(from)}–${end}`;
}

const zones = new Map();

// A date's time in the chosen zone, or "" where none is chosen.
export function zoned(date) {
  if (settings.zone === "") return "";
  if (!zones.has(settings.zone)) {
    zones.set(settings.zone, new Intl.DateTimeFormat("en-GB", { timeZone: settings.zone, hour: "2-digit", minute: "2-digit", hourCycle: "h23" }));
  }
  return zones.get(settings.zone).format(date);
}

export const zoneName = () => settings.zone.split("/").at(-1).replaceAll("_", " ");
export const utcClock = (date) => `${two(date.getUTCHours())}:${two(date.getUTCMinutes())}`;

export const TIME_HINT = "10:20, or 2/10:20 with the day of the month, UTC";
export const NO_TIME = "A time is written as 10:20, or 2/10:20 with the day of the month.";

// The minute that "1020", "10:20" or "2/10:20", with a day of the month in front, says: of several the one nearest to `around`; or null.
export function minuteOf(text, around) {
  const found = /^(?:(\d{1,2})\/)?(\d{1,2}):?(\d{2})$/.exec(text.trim());
  if (found === null) return null;
  const [hours, minutes] = [Number(found[2]), Number(found[3])];
  if (hours > 24 || minutes > 59) return null;
  const within = hours * 60 + minutes;
  const days = Array.from({ length: state.days + 2 }, (_, place) => place - 1)
    .filter((day) => found[1] === undefined || dateOf(day * DAY).getUTCDate() === Number(found[1]));
  const minutesOf = days.map((day) => day * DAY + within);
  return minutesOf.sort((one, other) => Math.abs(one - around) - Math.abs(other - around) || other - one)[0] ?? null;
}

export const typed = (minute) => `${dateOf(minute).getUTCDate()}/${clock(minute)}`;
