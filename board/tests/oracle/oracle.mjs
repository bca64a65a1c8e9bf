// One drawn plan, tried: PROGRAM SEED DRAFTS. The page's modules and the server have to say the same of each draft, report, message, cancel and
// proposal. Prints what was met, as JSON; or ends with what differs.

import { execFileSync } from "node:child_process";
import { copyFileSync, mkdtempSync, rmSync, writeFileSync } from "node:fs";
import { tmpdir } from "node:os";
import { join } from "node:path";
import { proposalOf } from "../../proposal.js";
import { airportOf, drawsOf, visitOf } from "./draws.mjs";
import { checkSound, tryDraft } from "./drafts.mjs";
import { compareAlarms, tryFact } from "./facts.mjs";
import { Pipe } from "./pipe.mjs";
import { World, same } from "./world.mjs";

const VISITS = 90;
const COMPARED = 60;

const [program, seed, count] = [process.argv[2], Number(process.argv[3]), Number(process.argv[4])];
const room = mkdtempSync(join(tmpdir(), "board-rules-"));
const files = ["airport.toml", "types.csv"].map((name) => join(room, name));
const journal = join(room, "journal");

async function addVisits(world, draws, most) {
  for (let number = world.visits.size + 1; number <= most; number++) {
    const { body } = await world.ask("POST", "visits", visitOf(draws, number));
    await world.expect([body.visit], new Map(), "a new visit");
  }
}

// What the program proposes for the plan as it is, line by line, against the page's proposal for all its minutes.
function compareProposal(world) {
  const copy = join(room, "copy");
  copyFileSync(journal, copy);
  const theirs = execFileSync(program, ["propose", ...files, "PLANNER", "1", copy]).toString();
  const { edits, left, over } = proposalOf(world.model, world.visits, { begin: 0, end: Infinity });
  const id = ({ visit, part }) => `${visit}.${part}`;
  const two = (number) => String(number).padStart(2, "0");
  const time = (minute) => `${Math.floor(minute / 1440) + 1}/${two(Math.floor((minute % 1440) / 60))}${two(minute % 60)}`;
  const why = (part, it, stand) => {
    const { name } = world.model.stands[stand];
    if (it.by === "letter") return `left ${id(part)} ${name} letter`;
    if (it.by !== undefined) return `left ${id(part)} ${name} object ${it.by.object}`;
    const { a, b, minute, rule } = it.clash;
    return `left ${id(part)} ${name} clash ${id(a.visit === part.visit ? b : a)} at ${time(minute)} ${rule}`;
  };
  const mine = [`propose on version ${world.version}`, ...edits.map(({ put }) => `put ${id(put)} ${put.stand}`),
    ...left.flatMap((part) => part.why.map((it, stand) => why(part, it, stand))), ...over.map((part) => `over ${id(part)}`), "end"];
  const lines = theirs.trimEnd().split("\n");
  mine.forEach((line, place) => same(line, lines[place], `line ${place + 1} of the proposal`));
  same(mine.length, lines.length, "the lines of the proposal");
  world.tally["lines of proposals"] = (world.tally["lines of proposals"] ?? 0) + lines.length;
  return edits;
}

// Puts what is proposed into the plan, round by round.
async function fill(world) {
  for (let draft = 1; ; draft++) {
    const edits = compareProposal(world);
    if (edits.length === 0) return;
    const { is, body } = await world.ask("POST", "commits", { desk: "FILLER", draft, base: world.version, edits });
    same(is, "ok", `the proposal of ${edits.length} edits is answered ${JSON.stringify(body)}`);
    await world.expect(edits.map(({ put }) => put.visit), new Map(), "a proposed visit");
  }
}

async function tryPlan() {
  const draws = drawsOf(seed);
  const { airport, types } = airportOf(draws);
  writeFileSync(files[0], airport);
  writeFileSync(files[1], types);
  execFileSync(program, ["init", ...files, journal]);
  const pipe = new Pipe(program, files, journal);
  const world = new World(pipe);
  await world.begin();
  await addVisits(world, draws, VISITS);
  await fill(world);
  for (let number = 1; number <= count; number++) {
    await tryDraft(world, draws, number);
    if (draws.chance(40)) await tryFact(world, draws);
    if (draws.chance(15)) await addVisits(world, draws, world.visits.size + 1);
    if (number % COMPARED !== 0) continue;
    checkSound(world);
    await world.compareDays();
    await compareAlarms(world);
    if (number % (4 * COMPARED) === 0) compareProposal(world);
  }
  pipe.end();
  return world.tally;
}

try {
  console.log(JSON.stringify(await tryPlan()));
} finally {
  rmSync(room, { recursive: true });
}
