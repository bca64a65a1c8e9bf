// How a draft goes out: under a number that is kept before its bytes go, again and again until its reply is there, and a 200 is compared with
// what was sent.

import { sentOf, takenOf } from "./draft.js";
import { deskName, isHeld, newDesk, nextDraft } from "./desk.js";
import * as drafting from "./drafting.js";
import { say } from "./dom.js";
import { isAnswer } from "./forms.js";
import { look } from "./follow.js";
import * as picture from "./model.js";
import { draftTaken } from "./opening.js";
import { ask, maySend, pause } from "./net.js";
import { settings } from "./settings.js";

const AGAIN = 1000;

// The client that an entry is of, in words.
async function deskOf(entry) {
  const reply = await ask("GET", `entries/${entry}`);
  return reply.is === "ok" && reply.body.desk !== null ? `client ${reply.body.desk}` : "another client";
}

// Sends the draft. `refused` is told where the server refuses it.
export async function publish(refused) {
  if (drafting.pendingDraft() !== null || drafting.keptEdits().length === 0) return;
  if (!maySend()) return say("This page publishes nothing.");
  if (!isHeld()) return say("The name of this client is not sure yet: try again in a moment.");
  const sent = sentOf(picture.model(), picture.visits(), deskName(), nextDraft(), drafting.draftBase(), drafting.edits());
  drafting.setPending({ ...sent, seen: picture.version() });
  await settle(refused);
}

// Asks for the reply to the draft that is on its way, by the same bytes, until it is there.
export async function settle(refused) {
  for (;;) {
    const { body } = drafting.pendingDraft();
    const reply = await ask("POST", "commits", { body });
    if (isAnswer(reply)) return settled(reply, refused);
    drafting.setUnanswered(reply);
    await pause(AGAIN);
  }
}

async function settled(reply, refused) {
  if (reply.is === "refused") {
    drafting.settle(reply.body);
    await look();
    if (reply.body.error === "overtaken") drafting.blame(await deskOf(reply.body.edited));
    return refused();
  }
  const sent = drafting.pendingDraft();
  const { version } = reply.body;
  const verdict = await comparedWith(sent, version);
  if (verdict.is === "other") return sendAsAnother(verdict.why, refused);
  draftTaken(version);
  // The draft goes when the picture has it, so that no bar jumps back between.
  try {
    await look();
  } finally {
    drafting.settle(null);
  }
  say(`The draft is in the plan, as version ${version}.`);
  return undefined;
}

// Whether the version that a 200 names is this draft: its entry, and what it did to the visits.
async function comparedWith(sent, version) {
  if (version <= sent.base) return takenOf(sent, version, new Map(), null);
  const entry = await ask("GET", `entries/${version}`);
  const visits = new Map();
  for (const number of Object.keys(sent.parts ?? {})) {
    const visit = await ask("GET", `visits/${number}`);
    if (visit.is === "ok") visits.set(Number(number), visit.body);
  }
  return takenOf({ parts: {}, ...sent }, version, visits, entry.is === "ok" ? entry.body : null);
}

// The version is that of another draft with this client's name and number: these edits are not in the plan, and go out again from a client of a
// new name.
async function sendAsAnother(why, refused) {
  const before = deskName();
  drafting.settle({ error: `the client's name was in use: ${why}; the draft goes out again under another` });
  await newDesk(settings.name);
  drafting.movedFrom(before);
  await publish(refused);
}
