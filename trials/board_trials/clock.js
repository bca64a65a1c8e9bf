// The clock of a page that a trial moves: its Date, its performance.now and its timers run ahead of the machine's by so many milliseconds,
// and timers that a move passes are due at once.
(() => {
  const RealDate = Date;
  const clear = globalThis.clearTimeout.bind(globalThis);
  const set = globalThis.setTimeout.bind(globalThis);
  const count = performance.now.bind(performance);
  const pending = new Map();
  let ahead = AHEAD;
  try {
    ahead = Number(sessionStorage.getItem("trial ahead") ?? AHEAD);
  } catch {
    // A document without an origin keeps nothing.
  }
  let moved = 0;
  let last = 1e9;

  const now = () => RealDate.now() + ahead;
  class MovedDate extends RealDate {
    constructor(...words) {
      if (words.length === 0) super(now());
      else super(...words);
    }
    static now() {
      return now();
    }
  }
  const arm = (id) => {
    const it = pending.get(id);
    clear(it.real);
    it.real = set(() => {
      if (it.every === null) pending.delete(id);
      else {
        it.due = Math.max(it.due + it.every, now());
        arm(id);
      }
      it.act();
    }, Math.max(0, it.due - now()));
  };
  const timer = (act, delay, words, every) => {
    const id = (last += 1);
    const wait = Math.max(0, Number(delay) || 0);
    pending.set(id, { due: now() + wait, every: every ? Math.max(1, wait) : null, act: () => act(...words), real: 0 });
    arm(id);
    return id;
  };
  const cancel = (id) => {
    if (pending.has(id)) clear(pending.get(id).real);
    else clear(id);
    pending.delete(id);
  };
  globalThis.Date = MovedDate;
  globalThis.setTimeout = (act, delay, ...words) => timer(act, delay, words, false);
  globalThis.setInterval = (act, delay, ...words) => timer(act, delay, words, true);
  globalThis.clearTimeout = cancel;
  globalThis.clearInterval = cancel;
  performance.now = () => count() + moved;
  globalThis.moveClock = (by) => {
    ahead += by;
    moved += by;
    sessionStorage.setItem("trial ahead", String(ahead));
    for (const id of [...pending.keys()]) arm(id);
  };
})();
