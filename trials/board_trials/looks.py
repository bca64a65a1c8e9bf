"""Pictures for a person to look at, and what of them a script can measure: overlaps, contrast, the print, a tablet and a phone."""

import json
import os
import re
import time

from board_trials.desk import PICTURES, wait
from board_trials.plan import message_of
from board_trials.soon import add, come, free_stand, put

# Texts that are drawn over another text: pairs of elements with words whose boxes, as far as they are in sight, overlap by more than two pixels.
OVERLAPS = """
  const hasWords = (it) => [...it.childNodes].some((node) => node.nodeType === 3 && node.textContent.trim());
  const leaves = [...document.querySelectorAll("#top *, aside *, #foot *, #alarms *, #events *")]
    .filter((it) => it.checkVisibility({ visibilityProperty: true }) && hasWords(it));
  const boxes = leaves.map((it) => {
    const range = document.createRange(); range.selectNodeContents(it);
    let { left, right, top, bottom } = range.getBoundingClientRect();
    for (let up = it; up; up = up.parentElement) {
      if (getComputedStyle(up).overflow === "visible" && up !== document.body) continue;
      const outer = up.getBoundingClientRect();
      [left, right] = [Math.max(left, outer.left), Math.min(right, outer.right)];
      [top, bottom] = [Math.max(top, outer.top), Math.min(bottom, outer.bottom)];
    }
    return { left, right, top, bottom };
  });
  const found = [];
  const words = (it) => it.textContent.trim().slice(0, 30);
  leaves.forEach((one, at) => leaves.slice(at + 1).forEach((other, behind) => {
    if (one.contains(other) || other.contains(one)) return;
    const [a, b] = [boxes[at], boxes[at + 1 + behind]];
    const across = Math.min(a.right, b.right) - Math.max(a.left, b.left);
    if (across > 2 && Math.min(a.bottom, b.bottom) - Math.max(a.top, b.top) > 2) found.push(`${words(one)} | ${words(other)}`);
  }));
  return found.slice(0, 5);
"""
# Words of a bar that reach beyond it, over its buffer or another bar.
BEYOND = """
  const isOpen = (it) => getComputedStyle(it).overflow === "visible";
  return [...document.querySelectorAll(".bar")].flatMap((bar) => {
    const end = bar.getBoundingClientRect().right;
    return [...bar.querySelectorAll("b, span, i, em")]
      .filter((it) => it.checkVisibility() && it.textContent.trim() && !it.classList.contains("delay") && isOpen(bar) && isOpen(it))
      .filter((it) => {
        const range = document.createRange(); range.selectNodeContents(it);
        const at = range.getBoundingClientRect();
        return at.width > 0 && at.right > end + 3;
      })
      .map((it) => `${bar.dataset.key} ${it.textContent.trim()}`);
  }).slice(0, 5);
"""
# Words of one row of the chart that lie over others: of bars, of shadows, and of what a row says of the picked part.
OVERLAID = """
  const boxOf = (it) => {
    const range = document.createRange(); range.selectNodeContents(it);
    const [box, outer] = [range.getBoundingClientRect(), (it.closest(".bar, .shade") ?? it).getBoundingClientRect()];
    return { words: it.textContent.trim(), left: Math.max(box.left, outer.left), right: Math.min(box.right, outer.right), top: box.top, bottom: box.bottom };
  };
  const isOver = (a, b) => Math.min(a.right, b.right) - Math.max(a.left, b.left) > 3 && Math.min(a.bottom, b.bottom) - Math.max(a.top, b.top) > 4;
  return [...document.querySelectorAll(".row")].flatMap((row) => {
    const boxes = [...row.querySelectorAll(".bar b, .bar i, .shade span, .spot span")].filter((it) => it.checkVisibility() && it.textContent.trim()).map(boxOf);
    return boxes.flatMap((a, at) => boxes.slice(at + 1).filter((b) => isOver(a, b)).map((b) => `${a.words} | ${b.words}`));
  }).slice(0, 5);
"""
# Words with a contrast below 4.5 with what is behind them, of elements with one plain colour behind.
CONTRAST = """
  const parsed = (text) => {
    const it = text.match(/[\\d.]+/g)?.map(Number) ?? [0, 0, 0, 0];
    return /^color\\(srgb/.test(text) ? [...it.slice(0, 3).map((part) => part * 255), it[3] ?? 1] : [...it.slice(0, 3), it[3] ?? 1];
  };
  const linear = (part) => (part / 255 <= 0.04045 ? part / 255 / 12.92 : ((part / 255 + 0.055) / 1.055) ** 2.4);
  const light = ([r, g, b]) => 0.2126 * linear(r) + 0.7152 * linear(g) + 0.0722 * linear(b);
  const over = (front, back) => front.slice(0, 3).map((part, at) => part * front[3] + back[at] * (1 - front[3]));
  const behind = (it) => {
    const stack = [];
    for (let up = it; up; up = up.parentElement) {
      const style = getComputedStyle(up);
      if (style.backgroundImage !== "none") return null;
      stack.push(parsed(style.backgroundColor));
      if (stack.at(-1)[3] === 1) break;
    }
    return stack.reverse().reduce((back, colour) => over(colour, back), [255, 255, 255]);
  };
  const nameOf = (it) => `${it.tagName.toLowerCase()}${it.id ? `#${it.id}` : ""}.${[...it.classList].join(".")}`;
  const worst = new Map();
  for (const it of document.querySelectorAll("body *")) {
    const hasWords = [...it.childNodes].some((node) => node.nodeType === 3 && node.textContent.trim());
    if (!hasWords || !it.checkVisibility({ visibilityProperty: true, opacityProperty: true }) || it.closest(":disabled, [aria-hidden=true]")) continue;
    const back = behind(it);
    if (back === null) continue;
    const [one, other] = [light(over(parsed(getComputedStyle(it).color), back)), light(back)];
    const ratio = (Math.max(one, other) + 0.05) / (Math.min(one, other) + 0.05);
    if (ratio < 4.5) worst.set(nameOf(it), `${ratio.toFixed(1)} ${nameOf(it)} in ${nameOf(it.parentElement)}: ${it.textContent.trim().slice(0, 20)}`);
  }
  return [...worst.values()].slice(0, 8);
"""
# Which of the unallocated parts is picked after the first: a short one.
PICKED_NEXT = 4


def stir(room):
    """Makes what a picture should show: a lost stand, an alarm, a delay, a closure and a warning."""
    now = room.now()
    stand = free_stand(room, now - 60, now + 100)
    for name in ("ALARM-1", "ALARM-2"):
        come(room, add(room, name, now - 30, now + 30), stand, now - 30)
    closed = add(room, "CLOSED-900", now, now + 120, kind="B190", rank=0)
    put(room, closed, free_stand(room, now, now + 140))
    late = [it for it in room.visits() if it["state"] == "expected" and it["arr"] and it["arr"]["day"] >= 1 and it["parts"][0]["stand"] and now < it["parts"][0]["from"] < now + 240]
    for visit in late[::6]:
        room.asked.post("/mvt", message_of(visit, visit["on"] + 41))


def looked_at(room, name, query="", **more):
    """A board that is brought to its picture, and what is wrong with that."""
    desk = room.desk(query, zone="Europe/Berlin", **more)
    time.sleep(1.2)
    desk.picture(name)
    return desk, [f"{name}: {it}" for script in (OVERLAPS, BEYOND, OVERLAID) for it in desk.run(script)]


def pictures(room):
    """By day and by night, also while a long part and a short one are picked: nothing is drawn over anything else, and each word has a contrast of 4.5."""
    stir(room)
    wrong = []
    for theme in ("day", "night"):
        desk, found = looked_at(room, theme, theme=theme)
        wrong += found + [f"{theme}: contrast {it}" for it in desk.run(CONTRAST)]
        keys = desk.run("return [...document.querySelectorAll('#waitlist .wait')].map((it) => it.dataset.key)")
        for suffix, key in (("picked", keys[0]), ("picked-short", keys[PICKED_NEXT])):
            desk.click(f'.wait[data-key="{key}"]')
            time.sleep(0.5)
            desk.picture(f"{theme}-{suffix}")
            wrong += [f"{theme}, {key} picked: {it}" for it in desk.run(OVERLAID)]
            desk.keys("Escape")
    assert not wrong, "; ".join(wrong)
    return f"in {PICTURES}"


def sizes(room):
    """On the wall, with 4 hours and 24, on a laptop and a tablet nothing is drawn over anything else."""
    stir(room)
    wrong = []
    for name, theme, size, query in (("wall", "night", (3840, 2160), "?wall"), ("hours-24", "day", (1920, 1080), "?hours=24"),
                                     ("hours-4", "night", (1920, 1080), "?hours=4"), ("laptop", "day", (1366, 768), ""), ("tablet", "day", (1024, 768), "")):
        desk, found = looked_at(room, name, query, theme=theme, size=size)
        wrong += found
        room.desks.remove(desk)
        desk.close()
    assert not wrong, "; ".join(wrong)
    return f"in {PICTURES}"


def printed(room):
    """The print is one page of A3, says when it was printed, and keeps the marks of overdue aircraft."""
    desk = room.desk(theme="day")
    room.move(minutes=60)
    time.sleep(1.5)
    for theme in ("day", "night"):
        desk.run("localStorage.setItem('apron / settings', args[0])", json.dumps({"name": "ANNA", "theme": theme, "zone": "", "rows": "normal"}))
        desk.reload()
        time.sleep(1)
        text = desk.page.printed()
        os.makedirs(PICTURES, exist_ok=True)
        with open(os.path.join(PICTURES, f"printed-{theme}.pdf"), "wb") as file:
            file.write(text)
        pages = len(re.findall(rb"/Type\s*/Page\b", text))
        box = [float(it) for it in re.search(rb"/MediaBox\s*\[([^\]]*)\]", text)[1].split()]
        assert pages == 1, f"it is printed on {pages} pages"
        assert abs(box[2] - 1190.5) < 3 and abs(box[3] - 842) < 3, f"the page is {box}"
    desk.page.call("Emulation.setEmulatedMedia", media="print")
    desk.run("dispatchEvent(new Event('beforeprint'))")
    words = desk.run("return document.body.innerText")
    assert re.search(r"[Pp]rinted", words), "it does not say when it was printed"
    marks = desk.run("return [...document.querySelectorAll('.bar.overdue')].map((it) => [getComputedStyle(it).borderTopStyle, getComputedStyle(it).printColorAdjust, it.textContent.includes('!')])")
    assert marks and all(adjusted == "exact" or has_mark for _, adjusted, has_mark in marks), f"overdue aircraft are {marks[:2]}"


def phone(room):
    """A tablet of 1,024 pixels and a phone can read the board and report: nothing needed is out of sight."""
    visit = next(it for it in room.visits() if it["state"] == "onblock" and it["parts"][0]["stand"])
    for name, size in (("tablet", (1024, 768)), ("phone", (390, 844))):
        desk = room.desk(None, size=size, theme="day")
        desk.page.size(size, is_phone=name == "phone")
        desk.open()
        time.sleep(1)
        desk.picture(name)
        wide = desk.run("return document.documentElement.scrollWidth")
        assert wide <= size[0] + 1, f"on a {name} the page is {wide} pixels wide"
        bar = desk.run("return document.querySelector('.bar').getBoundingClientRect().height")
        assert bar >= 17, f"a bar is {bar} pixels high"
        desk.row_of(visit["parts"][0]["stand"])
        x, y = desk.middle(f'[id="p{visit["visit"]}.1"]')
        desk.page.click_at(x, y, clicks=2)
        wait(f"on a {name} the menu is in sight", lambda: desk.shown("#menu button"))
        box = desk.place_of("#menu")
        assert box["left"] >= 0 and box["right"] <= size[0] and box["bottom"] <= size[1] + 1, f"the menu is at {box}"
        desk.run("[...document.querySelectorAll('#menu button')].find((it) => /off block/i.test(it.textContent)).click()")
        box = wait("the dialogue is there", lambda: desk.shown("#dialog[open]") and desk.place_of("#dialog"))
        assert box["left"] >= 0 and box["right"] <= size[0] + 1, f"the dialogue is at {box}"
        desk.keys("Escape")


TRIALS = (pictures, sizes, printed, phone)
