// The server's clock, by the Date fields of its replies. The clock of the machine that shows a page may be wrong, and that of a server for
// training may run faster.

/**
 * @typedef {{server: number, sent: number, got: number}} Sample  the second that a reply told, and the machine's milliseconds around it
 * @typedef {{samples: Sample[], least: number, most: number, training: boolean}} Clock  between `least` and `most` milliseconds the server is ahead
 */

const SAMPLES = 20;
const SAID = 30000;
// The Date field has whole seconds.
const SECOND = 1000;
// By how much a clock has to run faster until that is no fault of measuring, and over how long that is measured.
const FASTER = 1.2;
const MEASURED = 1500;

/** @returns {Clock} */
export const newClock = () => ({ samples: [], least: -Infinity, most: Infinity, training: false });

/**
 * The clock after a reply: `date` is its field, `sent` and `got` are the machine's milliseconds, and `training` whether the server says that it is
 * one for training. A reply without the field, or with another text, says nothing.
 * @param {Clock} clock @param {{date: string | null, sent: number, got: number, training?: boolean}} reply
 * @returns {Clock}
 */
export function heard(clock, { date, sent, got, training = false }) {
  const server = Date.parse(date ?? "");
  if (!Number.isFinite(server)) return clock;
  const samples = [...clock.samples, { server, sent, got }].slice(-SAMPLES);
  const [low, high] = [server - got, server + SECOND - sent];
  const [least, most] = [Math.max(clock.least, low), Math.min(clock.most, high)];
  // If the newest does not agree with the earlier ones, one of the clocks was set: it alone counts.
  const agrees = least <= most;
  return { samples: agrees || training ? samples : samples.slice(-1), least: agrees ? least : low, most: agrees ? most : high, training };
}

/**
 * How many times as fast as the machine's the server's clock runs: 1 unless the server is one for training.
 * @param {Clock} clock
 */
export function speedOf({ samples, training }) {
  if (!training || samples.length < 2) return 1;
  const [first, last] = [samples[0], samples.at(-1)];
  const passed = last.got - first.got;
  const speed = passed < MEASURED ? 1 : (last.server - first.server) / passed;
  return speed > FASTER ? speed : 1;
}

/**
 * The server's present time at a time of the machine, both in milliseconds since 1970.
 * @param {Clock} clock @param {number} local
 */
export function instantOf(clock, local) {
  if (clock.samples.length === 0) return local;
  const speed = speedOf(clock);
  if (speed === 1) return local + (clock.least + clock.most) / 2;
  const last = clock.samples.at(-1);
  return last.server + SECOND / 2 + (local - (last.sent + last.got) / 2) * speed;
}

/**
 * By how many milliseconds the machine's clock is ahead of the server's; below 0 if it is behind.
 * @param {Clock} clock @param {number} local
 */
export const skewOf = (clock, local) => local - instantOf(clock, local);

/**
 * What is to be said of the machine's clock; or null where it is right to half a minute, or the server is one for training.
 * @param {Clock} clock @param {number} local
 */
export function skewWords(clock, local) {
  const skew = skewOf(clock, local);
  if (clock.training || Math.abs(skew) <= SAID) return null;
  return `The clock of this machine is ${spanWords(Math.abs(skew))} ${skew > 0 ? "fast" : "slow"}: the server's is used.`;
}

function spanWords(milliseconds) {
  const seconds = Math.round(milliseconds / SECOND);
  if (seconds < 120) return `${seconds} seconds`;
  const minutes = Math.round(seconds / 60);
  return minutes < 120 ? `${minutes} minutes` : `${Math.round(minutes / 60)} hours`;
}
