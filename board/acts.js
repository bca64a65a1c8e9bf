// What can be done with a part, by the words of the menu; keys do the same.

import { showCard } from "./card.js";
import { cancel, newTimes, reportOff, reportOn } from "./commands.js";
import { cutPart, join, lift, swap } from "./moves.js";
import { drop, pick, pickedParts } from "./pick.js";
import { openStand } from "./shiftwork.js";

export const actsOn = (part) => ({
  pick: () => pick(part),
  lift: () => lift([part]),
  times: () => newTimes(part),
  cut: () => cutPart(part),
  join: () => join(part),
  on: () => reportOn(part),
  off: () => reportOff(part),
  cancel: () => cancel(part),
  open: () => openStand(part),
  card: () => showCard(part),
  liftall: () => lift(pickedParts()),
  swap: () => swap(pickedParts()),
  drop,
});
