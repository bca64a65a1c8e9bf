// The client that a tab is: its name, the lock of that name, and the count of its drafts.

import { HERE, keep, read } from "./store.js";

// A tab is a client of its own, by the user's name and random letters. What a tab keeps is copied when the tab is duplicated: so a client is
// the one of the page that has the lock of its name, and any other page takes new letters. A name is used only once its lock is held.
const state = { name: "", drafts: 0, isHeld: false };
const LOCK_PATIENCE = 1500;

export const deskName = () => state.name;
export const isHeld = () => state.isHeld;

// The next number of this client's drafts. It is kept before it is used, so that it is never used twice.
export function nextDraft() {
  state.drafts += 1;
  keep(sessionStorage, "desk", { name: state.name, drafts: state.drafts });
  return state.drafts;
}

// Makes a new name for this tab, and resolves once its lock is held. Nobody else can have the lock of new letters, so there is no limit of
// time. Where the browser has no locks a new name is this page's alone.
export async function newDesk(user) {
  const letters = [...crypto.getRandomValues(new Uint8Array(6))].map((byte) => String.fromCharCode(65 + (byte % 26))).join("");
  Object.assign(state, { name: `${user.slice(0, 5)}-${letters}`, drafts: 0, isHeld: false });
  keep(sessionStorage, "desk", { name: state.name, drafts: 0 });
  const { name } = state;
  if (navigator.locks !== undefined) await held(name);
  if (state.name === name) state.isHeld = true;
}

const lockOf = (name) => `apron ${HERE} ${name}`;

// Resolves with whether this page has the lock of the name, which it then keeps until it ends.
function held(name, options = {}) {
  return new Promise((done) => {
    const taken = () => {
      done(true);
      return new Promise(() => {});
    };
    navigator.locks.request(lockOf(name), options, taken).catch(() => done(false));
  });
}

// Takes up the client that this tab had before a reload, or makes a new one of the user's name. Gives the name of the client that the tab kept,
// and whether it is this page's: the draft of a tab that this one was copied from will be sent there.
export async function takeDesk(user) {
  const kept = read(sessionStorage, "desk", null);
  const isOurs = kept !== null && navigator.locks !== undefined && (await held(kept.name, { signal: AbortSignal.timeout(LOCK_PATIENCE) }));
  if (isOurs) Object.assign(state, kept, { isHeld: true });
  else await newDesk(user);
  return { before: kept?.name ?? null, isOurs: isOurs || navigator.locks === undefined };
}

// The clients of other pages of this browser that are open now.
export async function openDesks() {
  if (navigator.locks === undefined) return [];
  const { held: all } = await navigator.locks.query();
  return all.map(({ name }) => name).filter((name) => name.startsWith(lockOf(""))).map((name) => name.slice(lockOf("").length));
}
