// The example sessions (examples/sessions): each request with the reply that it is owed.

import { existsSync, readFileSync, readdirSync } from "node:fs";

const SESSIONS = new URL("../../examples/sessions/", import.meta.url);
const HEAD = /^(?:\r?\n)*(?:([A-Z]+) \/(\S*) HTTP\/1\.[01]|HTTP\/1\.1 (\d{3}) [^\r\n]*)\r?\n((?:[^\r\n]+\r?\n)*)\r?\n/;

/** The names of the sessions with a first step of a desk. */
export const sessions = () => readdirSync(SESSIONS).filter((name) => {
  const [words, input] = ["words", "input"].map((kind) => new URL(`${name}/1.${kind}`, SESSIONS));
  return existsSync(words) && existsSync(input) && /^desk demo\/airport.toml demo\/types.csv /.test(readFileSync(words, "utf8"));
});

// The requests or replies of a text, up to the first that is malformed.
function messagesOf(text) {
  const messages = [];
  for (let rest = text; ;) {
    const head = HEAD.exec(rest.toString("latin1"));
    if (head === null) return messages;
    const [all, method, target, status, fields] = head;
    const length = Number(/^content-length: *(\d+) *\r?$/im.exec(fields)?.[1] ?? 0);
    const version = /^x-version: (\d+)\r?$/im.exec(fields)?.[1];
    messages.push({ method, target, status: Number(status), version: Number(version ?? 0), text: rest.subarray(all.length, all.length + length).toString() });
    rest = rest.subarray(all.length + length);
  }
}

/** The exchanges of a session's first step: what was asked, and the reply. */
export function exchangesOf(name) {
  const read = (file) => messagesOf(readFileSync(new URL(`${name}/${file}`, SESSIONS)));
  const replies = read("1.output");
  return read("1.input").slice(0, replies.length).map(({ method, target, text }, place) => ({ asked: { method, target, body: text }, reply: replies[place] }));
}
