// The sound of an event: two short tones, or four for an alarm. A browser lets a page sound only after somebody has touched it.

const state = { context: null };

function wake() {
  state.context ??= new AudioContext();
  if (state.context.state === "suspended") state.context.resume().catch(() => {});
}

export function listenForTouch() {
  for (const kind of ["pointerdown", "keydown"]) addEventListener(kind, wake, { once: true, capture: true });
}

export function sound(isAlarm) {
  if (typeof AudioContext === "undefined") return;
  wake();
  const { context } = state;
  for (let turn = 0; turn < (isAlarm ? 4 : 2); turn++) tone(context, context.currentTime + turn * 0.28, isAlarm ? 880 : 587);
}

function tone(context, at, pitch) {
  const source = context.createOscillator();
  const loudness = context.createGain();
  source.frequency.value = pitch;
  loudness.gain.setValueAtTime(0.0001, at);
  loudness.gain.exponentialRampToValueAtTime(0.25, at + 0.02);
  loudness.gain.exponentialRampToValueAtTime(0.0001, at + 0.22);
  source.connect(loudness).connect(context.destination);
  source.start(at);
  source.stop(at + 0.24);
}
