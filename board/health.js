// How the page and its link to the server are: what is said where a picture is old, and why. The green dot is there only while a whole
// turn, from the question to the drawn page, has just gone well.

import { $, button, setText } from "./dom.js";
import { hasPicture, version } from "./model.js";
import { clockOf, isTraining, lateSeconds, maySend, seen } from "./net.js";
import { skewWords } from "./clock.js";
import { address } from "./settings.js";

// A picture that is older than this is said to be old; an error that nobody foresaw is said for so long at least.
const OLD = 8000;
const FAULT_SAID = 20000;

const state = { good: null, trouble: null, fault: null, goOn: null };

const isGood = () => state.trouble === null && state.fault === null && state.good !== null
  && performance.now() - state.good < OLD && lateSeconds() === 0;

// A whole turn went well.
export function turnWentWell() {
  Object.assign(state, { good: performance.now(), trouble: null });
  if (state.fault !== null && performance.now() - state.fault.at > FAULT_SAID) state.fault = null;
}

// An outcome that is no answer, or an older plan, which a person has to accept: `goOn` does that.
export function turnFailed(outcome, goOn = null) {
  state.trouble = outcome;
  state.goOn = goOn;
}

// An error that nobody foresaw.
export function faultHappened(fault) {
  state.fault = { words: String(fault?.message ?? fault).slice(0, 200), at: performance.now() };
  console.error(fault);
}

export const hasTrouble = () => state.trouble !== null;

function ageWords() {
  if (!hasPicture() || state.good === null) return "no picture yet";
  const seconds = Math.round((performance.now() - state.good) / 1000);
  return `picture of version ${version()} is ${seconds < 120 ? `${seconds} s` : `${Math.round(seconds / 60)} min`} old`;
}

const SHORT = {
  login: "not allowed", forbidden: "forbidden", missing: "not found", gateway: "gateway", slow: "server slow", nobody: "server not there",
  foreign: "not the server's reply", cut: "reply cut short", status: "strange reply", disk: "server's disk", memory: "server's memory",
  redirect: "sent elsewhere", ahead: "older plan",
};

function shortWords() {
  if (state.fault !== null) return "fault in this page";
  if (state.trouble !== null) return SHORT[state.trouble.cause] ?? "no answer";
  return lateSeconds() > 0 ? "server slow" : "";
}

export function drawHealth() {
  const isThere = isGood();
  const short = shortWords();
  if ($("link").className !== (isThere ? "there" : "away")) $("link").className = isThere ? "there" : "away";
  setText($("link").querySelector("span"), isThere ? `version ${version()}` : `${short === "" ? "" : `${short} · `}${ageWords()}`);
  drawTrouble();
  drawSigns();
}

// The words change only with their cause, so that a screen reader says them once; the age beside the dot goes on.
function drawTrouble() {
  const box = $("trouble");
  const late = lateSeconds();
  const { trouble, fault } = state;
  const words = fault !== null ? `This page met an error that nobody foresaw: ${fault.words}. It has started to ask again.`
    : trouble !== null ? `${trouble.words} It is asked again and again.`
      : late > 5 ? "The server is slow: its reply is awaited." : "";
  const isAhead = trouble?.cause === "ahead" && fault === null;
  const key = isAhead ? `ahead ${trouble.version}` : words;
  if (box.dataset.key === key) return;
  box.dataset.key = key;
  if (!isAhead) box.replaceChildren(words);
  else box.replaceChildren(`The server's plan has version ${trouble.version}, and version ${seen()} was shown: it has lost something. `,
    button("Go on from the server's plan", state.goOn));
}

function drawSigns() {
  const isOwn = address.now !== null;
  $("training").hidden = !isOwn && !isTraining();
  setText($("training"), isOwn ? `TRAINING ${address.now.slice(11, 16)}${maySend() || address.isWall ? "" : " · publishes nothing"}` : "TRAINING");
  const skew = isOwn ? null : skewWords(clockOf(), Date.now());
  $("clocknote").hidden = skew === null;
  setText($("clocknote"), skew ?? "");
}
