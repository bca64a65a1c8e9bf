// Commands that are sent at once: visits, messages, new times, reports and cancels. What each would do is shown before, by the page's own rules.

import * as axis from "./axis.js";
import { deskName } from "./desk.js";
import { converse } from "./dialogs.js";
import * as picture from "./model.js";
import { movementOf } from "./movement.js";
import { ask, post } from "./net.js";
import { outcome } from "./outcome.js";
import { partName, partOf, visitName, visitOf } from "./plan.js";
import { daysOfPreview, previewCancel, previewMessage, previewReport } from "./preview.js";
import { NO_TIME, TIME_HINT, dateOf, dayOf, minuteOf, nowMinute, typed, when } from "./times.js";
import { bumpedWords, clashWords, refusalWords } from "./words.js";

// What a preview says, in lines, and whether a person has to agree.
function previewLines(preview) {
  if (preview === null) return null;
  if (preview.refused !== null) return { lines: [`Would be refused: ${refusalWords(preview.refused)}`], asks: false };
  const lines = [
    ...(preview.none ? [`It changes nothing: ${preview.none}.`] : []), ...bumpedWords(preview.bumped),
    ...preview.alarms.map((alarm) => `An alarm: ${clashWords(alarm)}`), ...(preview.notes ?? []),
    ...(preview.final ? [preview.final] : []),
  ];
  const unread = daysOfPreview(picture.model(), preview).filter((day) => !picture.covers().has(day));
  if (unread.length > 0) lines.push(`Day ${unread.join(", ")} of the plan is not read: what it would do there is not known.`);
  return { lines, asks: preview.asks || unread.length > 0 };
}

const inSightOrNow = () => Math.round(axis.isFollowing() ? nowMinute() : Math.max(axis.start(), 0));

export function addVisit() {
  const types = picture.model().types.map((type) => type.name);
  const at = inSightOrNow();
  const date = String(dateOf(at).getUTCDate());
  converse("Add a visit", [
    { name: "name", words: "Name", hint: "1 to 12 of A-Z 0-9 -" },
    { name: "type", words: "Type", options: types },
    { name: "class", words: "Priority", value: "5", options: [..."0123456789"], hint: "0 keeps a stand before 9" },
    { name: "on", words: "On block", value: typed(at), hint: TIME_HINT },
    { name: "off", words: "Off block", value: typed(at + 60) },
    { name: "arr", words: "Comes as", hint: "flight, or empty" },
    { name: "arrday", words: "of the", value: date, hint: "day of the month on which it leaves its origin" },
    { name: "dep", words: "Leaves as", hint: "flight, or empty" },
    { name: "depday", words: "of the", value: date },
  ], (said, tell) => {
    const [on, off] = [minuteOf(said.on, at), minuteOf(said.off, at + 60)];
    if (on === null || off === null) return NO_TIME;
    const flight = (name, day) => (name === "" ? null : { flight: name.toUpperCase(), day: dayOf(minuteOf(`${day}/00:00`, on) ?? 0) });
    return outcome("visit", () => post("visits", {
      name: said.name.toUpperCase(), type: said.type, class: Number(said.class), on, off,
      arr: flight(said.arr, said.arrday), dep: flight(said.dep, said.depday),
    }), tell);
  }, { words: "Add" });
}

const sendMessage = (text, tell) => outcome("message", () => ask("POST", "mvt", { body: text, desk: deskName() }), tell);

export function takeMessage() {
  converse("Movement message", [{ name: "text", words: "MVT", lines: 9, hint: "as it came, from the line MVT on or with its envelope" }],
    (said, tell) => sendMessage(`${said.text}\n`, tell),
    { words: "Take in", check: (said) => (said.text === "" ? null : previewLines(previewMessage(picture.model(), picture.visits(), `${said.text}\n`))) });
}

// New times of a visit, by the message that says them. `wanted` has those that a drag gave.
export function newTimes({ visit }, wanted = {}) {
  const it = visitOf(visit);
  const [from, to] = [it.parts[0].from, it.parts.at(-1).to];
  const isHere = it.state === "onblock";
  const first = wanted.on ?? from;
  const last = wanted.off ?? to;
  const messagesOf = (said) => {
    const [on, off] = [minuteOf(said.on ?? typed(from), from), minuteOf(said.off, to)];
    if (on === null || off === null) return null;
    return movementOf(picture.model(), picture.visits(), it, { ...(on === from ? {} : { on }), ...(off === to ? {} : { off }) });
  };
  converse(`New times of ${visitName(visit)}`, [
    ...(isHere ? [] : [{ name: "on", words: "On block", value: typed(first), hint: `expected ${when(from)}, scheduled ${when(it.on)}` }]),
    { name: "off", words: "Off block", value: typed(last), hint: `expected ${when(to)}, scheduled ${when(it.off)}` },
  ], async (said, tell) => {
    const found = messagesOf(said);
    if (found === null) return NO_TIME;
    if (found.messages.length === 0) return found.cannot.length > 0 ? cannotWords(found).join(" ") : "Both times are as they were.";
    for (const { text } of found.messages) {
      const wrong = await sendMessage(text, tell);
      if (wrong !== null) return wrong;
    }
    return null;
  }, { words: "Publish the message", check: (said) => timesPreview(messagesOf(said)) });
}

const cannotWords = ({ cannot }) => cannot.map(({ time, why }) => `The time ${time} block can't be told: ${why}.`);

function timesPreview(found) {
  if (found === null) return { lines: [NO_TIME], asks: false };
  const all = found.messages.map(({ text }) => ({ text, ...previewLines(previewMessage(picture.model(), picture.visits(), text)) }));
  const lines = [...cannotWords(found), ...all.flatMap(({ text, lines: told }) => [text.trim().replaceAll("\n", " · "), ...told])];
  return { lines, asks: all.some(({ asks }) => asks) };
}

const previewed = (said) => previewLines(said === null ? null : previewReport(picture.model(), picture.visits(), said));

function report(said, tell) {
  return said === null ? NO_TIME : outcome("report", () => post("reports", said, deskName()), tell);
}

export function reportOn({ visit, part }) {
  const it = partOf({ visit, part });
  const now = it.actual ? it.from : nowMinute();
  const saidOf = (values) => {
    const minute = minuteOf(values.minute, now);
    return minute === null ? null : { visit, on: { part, stand: values.stand.toUpperCase(), minute } };
  };
  const check = (values) => {
    const stand = values.stand.toUpperCase();
    if (stand === "") return null;
    if (!picture.model().standOf.has(stand)) return { lines: [`There is no stand ${stand}.`], asks: false };
    return previewed(saidOf(values));
  };
  converse(`${partName({ visit, part })}: ${it.actual ? "correct the on block time" : "on block"}`, [
    { name: "stand", words: "Stand", value: it.stand ?? "", options: picture.model().stands.map((stand) => stand.name), free: true },
    { name: "minute", words: "At", value: typed(now), hint: TIME_HINT },
  ], (values, tell) => report(saidOf(values), tell), { words: "Report", check });
}

export function reportOff({ visit, part }) {
  const now = nowMinute();
  const saidOf = (values) => {
    const minute = minuteOf(values.minute, now);
    return minute === null ? null : { visit, off: { minute } };
  };
  converse(`${partName({ visit, part })}: off block`, [{ name: "minute", words: "At", value: typed(now), hint: TIME_HINT }],
    (values, tell) => report(saidOf(values), tell), { words: "Report", check: (values) => previewed(saidOf(values)) });
}

export function cancel({ visit }) {
  converse(`Cancel ${visitName(visit)}?`, [], (_, tell) => outcome("cancel", () => post("cancels", { visit }), tell),
    { words: "Cancel the visit", check: () => previewLines(previewCancel(picture.model(), picture.visits(), { visit })) });
}
