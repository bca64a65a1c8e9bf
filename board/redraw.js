// When the page is drawn: once before the next frame, however much has changed since the last.

// The milliseconds after which a page is drawn that was hidden before its frame came.
const LATEST = 1000;

const drawers = [];
const state = { asked: false, frame: 0, timer: 0, waiting: [] };

// Adds a function that brings its piece of the page up to date. They are called in the order in which they were added.
export const drawnBy = (drawer) => drawers.push(drawer);

// Draws soon. A hidden page has no frames, but its title still counts.
export function redraw() {
  if (state.asked) return;
  state.asked = true;
  if (!document.hidden) state.frame = requestAnimationFrame(draw);
  state.timer = setTimeout(draw, document.hidden ? 0 : LATEST);
}

// Resolves after the page was drawn, and fails where that failed.
export function drawn() {
  redraw();
  return new Promise((done, failed) => { state.waiting.push({ done, failed }); });
}

function draw() {
  cancelAnimationFrame(state.frame);
  clearTimeout(state.timer);
  state.asked = false;
  const { waiting } = state;
  state.waiting = [];
  try {
    for (const drawer of drawers) drawer();
  } catch (fault) {
    for (const { failed } of waiting) failed(fault);
    if (waiting.length === 0) throw fault;
    return;
  }
  for (const { done } of waiting) done();
}
