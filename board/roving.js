// Lists of buttons that are one tab stop each: the arrow keys go on from there.

const last = new WeakMap();

const itemsOf = (list) => [...list.querySelectorAll("button")];

// Brings the tab stop of a list up to date: the button that had the focus last, or the first.
export function setTabStop(list) {
  const items = itemsOf(list);
  const stop = items.includes(last.get(list)) ? last.get(list) : items[0];
  for (const item of items) {
    const index = item === stop ? 0 : -1;
    if (item.tabIndex !== index) item.tabIndex = index;
  }
}

// Lets the arrow keys go through a list.
export function rove(list) {
  list.addEventListener("focusin", (event) => {
    last.set(list, event.target.closest("button"));
    setTabStop(list);
  });
  list.addEventListener("keydown", (event) => {
    const by = { ArrowDown: 1, ArrowUp: -1, ArrowRight: 1, ArrowLeft: -1 }[event.key];
    if (by === undefined) return;
    const items = itemsOf(list);
    items[Math.min(Math.max(items.indexOf(document.activeElement) + by, 0), items.length - 1)]?.focus();
    event.preventDefault();
    event.stopPropagation();
  });
}

export const focusStop = (list) => (list.querySelector('button[tabindex="0"]') ?? list.querySelector("button"))?.focus();
