// Elements of the page: how they are made, changed in place, and what is said in the bottom line.

const SAID = 8000;

export const $ = (id) => document.getElementById(id);

// An element with attributes and children. Texts become text nodes, so that no name from the server is ever markup.
export function el(tag, { on = {}, style = {}, ...attributes } = {}, ...children) {
  const made = document.createElement(tag);
  for (const [name, value] of Object.entries(attributes)) setAttribute(made, name, value);
  for (const [name, value] of Object.entries(style)) made.style.setProperty(name, value);
  for (const [name, value] of Object.entries(on)) made.addEventListener(name, value);
  made.append(...children.filter((child) => child !== null && child !== undefined));
  return made;
}

function setAttribute(made, name, value) {
  if (value !== null && value !== undefined && value !== false) made.setAttribute(name, value === true ? "" : value);
}

export const button = (words, click, attributes = {}) => el("button", { type: "button", on: { click }, ...attributes }, words);

// Changes a text only where it differs: a screen reader is told nothing twice, and nothing is laid out again.
export function setText(node, words) {
  if (node.textContent !== words) node.textContent = words;
}

// Makes an element like a fresh one of the same kind, in place: focus, a press of the mouse and the scrolled place stay. What listens to it
// stays as well, so that elements which are changed so have no listeners of their own.
function morph(old, fresh) {
  for (const { name } of [...old.attributes]) if (name !== "style" && !fresh.hasAttribute(name)) old.removeAttribute(name);
  for (const { name, value } of fresh.attributes) if (name !== "style" && old.getAttribute(name) !== value) old.setAttribute(name, value);
  if (old.style.cssText !== fresh.style.cssText) old.style.cssText = fresh.style.cssText;
  const [had, wanted] = [[...old.childNodes], [...fresh.childNodes]];
  wanted.forEach((child, place) => {
    const there = had[place];
    if (there === undefined) old.append(child);
    else if (there.nodeName !== child.nodeName) there.replaceWith(child);
    else if (child.nodeType === Node.TEXT_NODE) setText(there, child.textContent);
    else morph(there, child);
  });
  for (const extra of had.slice(wanted.length)) extra.remove();
}

// Fills a list with items {key, sign, make}. The element of an item stays, and changes only where its sign does.
export function fillKeyed(list, items) {
  const old = new Map([...list.children].map((child) => [child.dataset.key, child]));
  const hadFocus = list.contains(document.activeElement);
  items.forEach(({ key, sign, make }, place) => {
    let child = old.get(key);
    old.delete(key);
    if (child?.dataset.sign !== sign) child = madeLike(child, key, sign, make());
    if (list.children[place] !== child) list.insertBefore(child, list.children[place] ?? null);
  });
  for (const gone of old.values()) gone.remove();
  if (hadFocus && !list.contains(document.activeElement)) list.querySelector("button")?.focus({ preventScroll: true });
}

function madeLike(child, key, sign, made) {
  Object.assign(made.dataset, { key, sign });
  if (child === undefined) return made;
  morph(child, made);
  return child;
}

let silence;

// Says something in the bottom line for some seconds, and to a screen reader.
export function say(words) {
  setText($("say"), words);
  clearTimeout(silence);
  silence = setTimeout(() => setText($("say"), ""), SAID);
}

// Puts a box beside a rectangle, inside the window.
export function placeNear(box, { left, bottom, top }) {
  const { width, height } = box.getBoundingClientRect();
  const below = bottom + 6 + height < innerHeight;
  box.style.setProperty("left", `${Math.max(6, Math.min(left, innerWidth - width - 6))}px`);
  box.style.setProperty("top", `${below ? bottom + 6 : Math.max(6, top - height - 6)}px`);
}
