// Dialogues: values are asked for, what they would do is shown before it is sent, and the page asks, with the focus on No, where anyone would
// lose a stand or it can't be undone.

import { $, button, el } from "./dom.js";

const state = { isDirty: false, close: null };

export const isOpen = () => $("dialog").open;

// Asks for values. `act(values, tell)` sends them, may tell how it goes meanwhile, and gives words where that failed: then the dialogue stays.
// `check(values)` gives {lines, asks} of what it would do, or null. A dialogue without fields asks at once.
export function converse(title, fields, act, { words = "Send", check = () => null } = {}) {
  const fault = el("p", { class: "bad", role: "alert", id: "fault" });
  const preview = el("div", { id: "preview", "aria-live": "polite" });
  const inputs = fields.map((field) => fieldOf(field));
  const send = el("button", { type: "submit" }, words);
  const ordinary = el("div", { class: "buttons" }, send, button("Close", () => $("dialog").close()));
  const asking = el("div", { class: "buttons", hidden: true });
  const values = () => Object.fromEntries(inputs.map(({ name, input }) => [name, input.value.trim()]));
  const form = el("form", { on: { submit: onSubmit, input: onInput } },
    el("h2", {}, title), ...inputs.map(({ row }) => row), preview, fault, ordinary, asking);
  let agreed = null;

  function onInput() {
    state.isDirty = true;
    calm();
    showPreview();
  }
  function showPreview() {
    const told = check(values());
    preview.replaceChildren(...(told?.lines ?? []).map((line) => el("p", { class: told.asks ? "warn" : "" }, line)));
    return told;
  }
  function calm() {
    asking.hidden = true;
    ordinary.hidden = false;
    fault.textContent = "";
    agreed = null;
  }
  function askFirst() {
    const no = button("No", () => (fields.length === 0 ? $("dialog").close() : calm()), { id: "no" });
    const yes = button(`Yes: ${words.toLowerCase()}`, () => { agreed = JSON.stringify(values()); onSubmit(); }, { id: "yes" });
    asking.replaceChildren(no, yes);
    asking.hidden = false;
    ordinary.hidden = true;
    no.focus();
  }
  async function onSubmit(event) {
    event?.preventDefault();
    const told = showPreview();
    if (told?.asks && agreed !== JSON.stringify(values())) return askFirst();
    asking.hidden = true;
    ordinary.hidden = false;
    send.disabled = true;
    const wrong = await act(values(), (said) => { fault.textContent = said; });
    send.disabled = false;
    agreed = null;
    if (!form.isConnected) return undefined;
    fault.textContent = wrong ?? "";
    if (wrong === undefined || wrong === null) $("dialog").close();
    return undefined;
  }

  state.isDirty = false;
  open(form);
  const told = showPreview();
  if (fields.length === 0 && told?.asks) askFirst();
  else (inputs[0]?.input ?? send).focus();
  return { refresh: showPreview };
}

function open(content) {
  const dialog = $("dialog");
  dialog.replaceChildren(content);
  if (!dialog.open) dialog.showModal();
}

// Asks a question with the focus on No; resolves with whether the answer was yes.
export function askYes(title, lines, yes) {
  return new Promise((done) => {
    const answer = (is) => () => {
      done(is);
      $("dialog").close();
    };
    const no = button("No", answer(false), { id: "no" });
    state.isDirty = false;
    const told = el("div", { id: "preview" }, ...lines.map((line) => el("p", { class: "warn" }, line)));
    open(el("form", { on: { submit: (event) => event.preventDefault() } }, el("h2", {}, title), told,
      el("div", { class: "buttons" }, no, button(yes, answer(true), { id: "yes" }))));
    $("dialog").addEventListener("close", () => done(false), { once: true });
    no.focus();
  });
}

// Shows something to read.
export function show(title, ...content) {
  const close = button("Close", () => $("dialog").close());
  state.isDirty = false;
  open(el("div", {}, el("h2", {}, title), ...content, el("div", { class: "buttons" }, close)));
  close.focus();
}

// Esc closes a dialogue, and asks before it drops typed text.
export function listenToDialog() {
  $("dialog").addEventListener("keydown", (event) => {
    if (event.key !== "Escape") return;
    event.preventDefault();
    event.stopPropagation();
    if (!state.isDirty) $("dialog").close();
    else askToDrop();
  });
  $("dialog").addEventListener("cancel", (event) => {
    if (!state.isDirty) return;
    event.preventDefault();
    askToDrop();
  });
}

function askToDrop() {
  const dialog = $("dialog");
  const before = dialog.querySelector("#drop-typed");
  if (before !== null) return keepTyping(before);
  const line = el("div", { id: "drop-typed", class: "buttons" }, el("span", { class: "warn" }, "Drop what you typed?"));
  const stay = button("Keep typing", () => keepTyping(line), { id: "keep-typing" });
  line.append(stay, button("Drop it", () => dialog.close()));
  dialog.append(line);
  stay.focus();
  return undefined;
}

function keepTyping(line) {
  line.remove();
  $("dialog").querySelector("input, textarea, select")?.focus();
}

function fieldOf({ name, words, value = "", hint = "", options, lines, free, type = "text" }) {
  const id = `f-${name}`;
  const shared = { id, name, autocomplete: "off", spellcheck: "false" };
  let input;
  if (lines) input = el("textarea", { ...shared, rows: lines, cols: 64 });
  else if (options && !free) input = el("select", shared, ...options.map((it) => el("option", { value: it }, it)));
  else input = el("input", { ...shared, type, list: options ? `${id}-list` : null });
  input.value = value;
  const list = options && free ? el("datalist", { id: `${id}-list` }, ...options.map((it) => el("option", { value: it }))) : null;
  return { name, input, row: el("div", { class: "field" }, el("label", { for: id }, words), input, list, hint === "" ? null : el("small", {}, hint)) };
}
