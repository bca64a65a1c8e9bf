// Drawn reports, messages and cancels: what a preview says of each is compared with what the server then does.

import assert from "node:assert/strict";
import { monthDayOf } from "../../mvt.js";
import { movementOf } from "../../movement.js";
import { planAfter, previewCancel, previewMessage, previewReport } from "../../preview.js";
import { alarmsOf, indexOf } from "../../rules.js";
import { same, told } from "./world.mjs";

/** Sends a drawn fact, and compares. */
export async function tryFact(world, draws) {
  await draws.one([tryReport, tryReport, tryMessage, tryMessage, tryMessage, tryMovement, tryCancel])(world, draws);
}

const two = (number) => String(number).padStart(2, "0");
const anyOf = (world, draws) => world.visits.get(draws.one([...world.visits.keys()]));

// Mostly a visit that has not left.
function liveOf(world, draws) {
  const live = [...world.visits.values()].filter(({ state }) => state === "expected" || state === "onblock");
  return live.length === 0 || draws.chance(5) ? anyOf(world, draws) : draws.one(live);
}

async function tryReport(world, draws) {
  const visit = liveOf(world, draws);
  const part = draws.chance(5) ? draws.between(0, 4) : draws.between(1, visit.parts.length);
  const it = visit.parts[part - 1] ?? visit.parts[0];
  const minute = Math.max(0, (draws.chance(60) ? it.from : it.to) + draws.between(-60, 90));
  const stand = it.stand !== null && draws.chance(60) ? it.stand : draws.one(world.model.stands).name;
  const said = { visit: draws.chance(2) ? world.visits.size + 5 : visit.visit, ...(draws.chance(65) ? { on: { part, stand, minute } } : { off: { minute } }) };
  await compare(world, previewReport(world.model, world.visits, said), "POST", "reports", said, said.on === undefined ? "report off" : "report on");
}

async function tryCancel(world, draws) {
  if (draws.chance(50)) return;
  const { visit } = liveOf(world, draws);
  await compare(world, previewCancel(world.model, world.visits, { visit }), "POST", "cancels", { visit }, "cancel");
}

async function tryMessage(world, draws) {
  const text = messageOf(world.model, liveOf(world, draws), draws);
  await compare(world, previewMessage(world.model, world.visits, text), "POST", "mvt", text, "message");
}

// A message about a visit's flight, now and then with something wrong.
function messageOf(model, visit, draws) {
  const arrives = draws.chance(55);
  const key = (arrives ? visit.arr : visit.dep) ?? { flight: "LH7", day: 1 };
  const time = (minute) => {
    const of = Math.max(0, minute + draws.between(-90, 150));
    const clock = `${two(Math.floor((of % 1440) / 60))}${two(of % 60)}`;
    return draws.chance(20) ? `${two(monthDayOf(model, Math.floor(of / 1440) + 1))}${clock}` : draws.chance(2) ? `${clock}0` : clock;
  };
  const on = () => time(visit.on);
  const off = () => time(visit.off);
  const elements = arrives ? [[`EA${on()} FLD`], [`AA${on()}`, `AA${on()}/${on()}`]] : [[`ED${off()}`], [`AD${off()}/${off()}`, `AD${off()}`]];
  const [elsewhere, ours] = elements;
  const isOurs = arrives ? draws.chance(50) : draws.chance(95);
  const lines = [draws.chance(5) ? `${draws.one(elsewhere)} ${draws.one(ours)}` : draws.one(arrives ? (isOurs ? ours : elsewhere) : draws.one(elements))];
  if (draws.chance(5)) lines.unshift(draws.one(["DL31/0010", "PX 120", "AD", "EA1200", "SI NOTHING", "EDX 1", "AA2460", "ED1200 ED1300"]));
  const day = two(monthDayOf(model, draws.chance(5) ? draws.between(0, 3) : key.day));
  const flight = draws.chance(20) ? key.flight.replace(/^(\D{2}|9X)/, "$10") : key.flight;
  const head = [...(draws.chance(20) ? ["QU FLDOPXX", ".MUCAPXX 271040", ""] : []), "MVT", `${flight}/${day}.DAIQA.${isOurs ? "FLD" : "MUC"}`];
  const end = draws.one(["\n", "\r\n"]);
  return [...head, ...lines].map((line) => `${line}${end}`).join("");
}

// The message that says new times of a visit says them to the server too.
async function tryMovement(world, draws) {
  const { model, visits } = world;
  const visit = liveOf(world, draws);
  const off = visit.parts.at(-1).to + draws.between(-60, 200);
  const wanted = { on: visit.parts[0].from + draws.between(-60, 200), off, actual: draws.chance(15) };
  const { messages, cannot } = movementOf(model, visits, visit, wanted);
  for (const { text, after, says } of messages) {
    await compare(world, previewMessage(model, world.visits, text), "POST", "mvt", text, `movement ${says}`);
    const timesOf = ({ parts }) => [parts[0].from, parts.at(-1).to];
    same(timesOf(after), timesOf(world.visits.get(visit.visit)), `the message ${told(text)}`);
    if (says === "EA" || says === "AA2") assert.equal(world.visits.get(visit.visit).parts[0].from, wanted.on, `the message ${told(text)}`);
    else assert.equal(world.visits.get(visit.visit).parts.at(-1).to, wanted.off, `the message ${told(text)}`);
  }
  for (const { why } of cannot) world.count(`no message: ${why.replace(/\d+|visit V-\S+/g, "..")}`);
}

async function compare(world, preview, method, target, said, what) {
  const reply = await world.ask(method, target, said);
  const { version, ...body } = reply.body;
  const where = `${what} ${told(said)}`;
  if (preview.refused !== null) {
    same(preview.refused, body, where);
    world.count(`${what}: ${preview.refused.error} ${preview.refused.fault ?? ""}`);
    return;
  }
  assert.equal(reply.is, "ok", `${where}: the preview takes it, the server says ${told(body)}`);
  const bumped = preview.bumped.map(({ part, visit }) => ({ part, visit }));
  if (target !== "cancels") same(target === "mvt" ? { bumped, visit: preview.visit } : { bumped }, body, where);
  world.count(preview.none !== null ? `${what}: no effect` : bumped.length > 0 ? `${what}: ${bumped.length === 1 ? "one loses" : "several lose"} a stand` : what);
  const numbers = preview.after === null ? [] : [preview.visit, ...bumped.map(({ visit }) => visit)];
  await world.expect(numbers, planAfter(world.visits, preview, version), where);
  if (preview.alarms.length > 0) world.count("makes an alarm");
}

/** The alarms of the page are those of the server's charts. */
export async function compareAlarms(world) {
  const time = (minute) => `${Math.floor(minute / 1440) + 1}/${two(Math.floor((minute % 1440) / 60))}${two(minute % 60)}`;
  const index = indexOf(world.model, world.visits.values());
  for (let day = 1; day <= world.model.days; day++) {
    const mine = alarmsOf(world.model, index, (day - 1) * 1440, day * 1440)
      .map(({ minute, a, b, rule }) => `${time(minute)} ${a.visit}.${a.part} ${b.visit}.${b.part} ${rule}`);
    const { body } = await world.ask("GET", `chart/${day}`);
    const theirs = body.split("ALARMS\n")[1].split("END\n")[0].split("\n").filter((line) => line !== "");
    same(mine.sort(), theirs.sort(), `the alarms of day ${day}`);
    world.tally.alarms = (world.tally.alarms ?? 0) + theirs.length;
  }
}
