// Commands that are sent at once: each is sent until its reply is there, and is one entry however often it goes out.

import { deskName } from "./desk.js";
import { isOpen } from "./dialogs.js";
import { say } from "./dom.js";
import { look } from "./follow.js";
import { isAnswer, retrySeconds } from "./forms.js";
import { ask, maySend, pause, seen } from "./net.js";
import { partName } from "./plan.js";
import { refusalWords } from "./words.js";

const LOST = "No reply came, and it is not known whether it was taken: look at the visit before you send it again.";
const NOTHING = "This page publishes nothing: it is for the wall, or for training at a server that is not.";

// Sends a command until its reply is there, and gives null where it was taken, or why not. A visit and a cancel can be sent again, since the
// server knows them by name and number. A message or a report would be another entry each time: so the entries since are looked through
// for one of this client, which is this tab's alone. A proxy may name the client by its user instead: then no entry is known to be this tab's, and a
// person decides. `taken` is told what a 200 says.
export async function outcome(kind, send, tell, taken = () => {}) {
  if (!maySend()) return NOTHING;
  const since = seen();
  const isOnce = kind === "message" || kind === "report";
  for (let turn = 1; ; turn++) {
    const was = turn > 1 && isOnce ? await wasTaken(kind, since) : false;
    if (was === null) return LOST;
    if (was === true) return accepted({}, taken);
    const reply = was === undefined ? { is: "trouble", words: "No reply came yet." } : await send();
    if (reply.is === "ok") {
      if (isOnce) await learnName(reply.body.version);
      return accepted(reply.body, taken);
    }
    if (isAnswer(reply)) return turn > 1 && kind === "cancel" && reply.body.error === "gone" ? accepted({}, taken) : refusalWords(reply.body);
    if (reply.mayBeTaken === false && reply.cause !== "memory") return reply.words;
    if (!isOpen()) return LOST;
    tell(`${reply.words} It is asked again.`);
    await pause(1000 * retrySeconds(turn));
  }
}

async function accepted(body, taken) {
  await look();
  if (body.visit === null) return "Taken in, but it is of no visit of the plan, or says nothing of it.";
  if (body.bumped?.length > 0) say(`Taken. ${body.bumped.map(partName).join(", ")} lost their stands.`);
  else say("Taken.");
  return (await taken(body)) ?? null;
}

// By which name the server has this tab's messages and reports: that of its client, or the one that a proxy gives; null before the first.
let knownAs = null;

async function learnName(version) {
  if (knownAs !== null) return;
  const entry = await ask("GET", `entries/${version}`);
  if (entry.is === "ok") knownAs = entry.body.desk;
}

// Whether this client has an entry of this kind since a version; undefined while the server is away, and null where the entries do not tell it.
async function wasTaken(kind, since) {
  const reply = await ask("GET", "version");
  if (reply.is !== "ok") return undefined;
  let others = 0;
  for (let number = since + 1; number <= reply.body.version; number++) {
    const entry = await ask("GET", `entries/${number}`);
    if (entry.is !== "ok") return isAnswer(entry) ? null : undefined;
    if (entry.body.kind !== kind) continue;
    if (entry.body.desk === deskName()) return true;
    others += 1;
  }
  return others > 0 && knownAs !== deskName() ? null : false;
}
