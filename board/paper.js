// The board on paper: one page of A3 with all rows and the hours in sight, beside them those that wait, and when it was printed.

import { printAxis } from "./axis.js";
import { drawChart, printRows } from "./chart.js";
import { $, el } from "./dom.js";
import { hasPicture, version } from "./model.js";
import { redraw } from "./redraw.js";
import { dayLong, instant, nowMinute, utcClock } from "./times.js";

// One page of A3, in the pixels of its paper.
const PAGE = { width: 1278, height: 930, lines: 84 };

function begin() {
  if (!hasPicture()) return;
  const printed = new Date();
  const shown = utcClock(new Date(instant()));
  const plan = `plan of ${dayLong(nowMinute())} ${shown} UTC, version ${version()}`;
  $("printed").textContent = `Printed ${printed.toISOString().slice(0, 10)} ${utcClock(printed)} UTC · ${plan}`;
  printAxis(PAGE.width);
  printRows(PAGE.height - $("alarms").offsetHeight);
  drawChart();
  cutList();
}

// As much of the list as there is room for, and how many more there are.
function cutList() {
  let lines = 0;
  const over = [...document.querySelectorAll("#waitlist > li")].filter((item) => {
    lines += item.querySelector("em") === null ? 1 : 2.4;
    return lines > PAGE.lines;
  });
  for (const item of over) item.classList.add("unprinted");
  if (over.length > 0) $("waiting").append(el("p", { class: "more" }, `and ${over.length} more`));
}

function end() {
  printAxis(null);
  printRows(null);
  $("waiting").querySelector(".more")?.remove();
  for (const item of document.querySelectorAll(".unprinted")) item.classList.remove("unprinted");
  redraw();
}

export function listenToPrint() {
  addEventListener("beforeprint", begin);
  addEventListener("afterprint", end);
}
