"""Trials of a board that stays on the wall: midnight, following, the axis, the wall, and a whole shift."""

import contextlib
import re
import time

from board_trials.chromium import CONTROL, SHIFT
from board_trials.desk import bar_of, wait
from board_trials.plan import DAY, NOW
from board_trials.room import clock_of, version_in

# Where the present minute is: its part of the chart's width, without the names of the stands.
NOW_AT = """
  const line = document.getElementById("nowline").getBoundingClientRect(); const chart = document.getElementById("chart");
  const box = chart.getBoundingClientRect(); const left = document.querySelector(".stand").getBoundingClientRect().right;
  return document.getElementById("nowline").checkVisibility() ? (line.left + line.width / 2 - left) / (box.left + chart.clientWidth - left) : null;
"""
# What scrolls of the list of unallocated parts: the list or what it is in.
SCROLLED = "let it = document.getElementById('waitlist'); while (it.scrollHeight < it.clientHeight + 60 || getComputedStyle(it).overflowY === 'visible') it = it.parentElement; "
SHIFT_HOURS, STEP = 8, 5
# How much more a page may hold after a shift than after its first half hour.
MOST_GROWTH = 8_000_000


def now_at(desk):
    return desk.run(NOW_AT)


def is_at(desk, place):
    """Whether the present minute is in sight, and at a place of the width."""
    at = now_at(desk)
    return at is not None and abs(at - place) < 0.04


def is_third(desk):
    return is_at(desk, 1 / 3)


def start_of(desk):
    return float(desk.attribute("#chart", "data-start"))


def hours_of(desk):
    return float(desk.attribute("#chart", "data-hours"))


def midnight(room):
    """The clock goes from 23:40 to 00:20 without a hand: the present minute stays where it is, at a third of the width, the date is the new day's, and its aircraft are there."""
    room.move(minutes=DAY * 1440 - 20 - NOW)
    desk = room.desk()
    assert "2 Jul" in desk.text("#date") or "2" in desk.text("#date")
    room.asked.post("/visits", {"name": "AFTER", "type": "A320", "class": 3, "on": DAY * 1440 + 30, "off": DAY * 1440 + 120})
    number = room.asked.post("/visits", {"name": "AFTER", "type": "A320", "class": 3, "on": DAY * 1440 + 30, "off": DAY * 1440 + 120})[1]["visit"]
    stand = next(it["name"] for it in room.airport.stands if room.verdict(room.visit(number), it["name"], room.visits(DAY, DAY + 1)) is None)
    room.asked.post("/commits", {"desk": "OTHER", "draft": 1, "base": room.version(), "edits": [{"put": {"visit": number, "part": 1, "stand": stand}}]})
    place = wait("the present minute is in sight", lambda: now_at(desk))
    for _ in range(8):
        room.move(minutes=5)
        wait(f"at {clock_of(room.now())} the present minute is where it was", lambda: is_at(desk, place), 8)
    assert is_third(desk), "the present minute is not at a third"
    wait("the clock is after midnight", lambda: desk.text("#utc").startswith("00:2"))
    assert "3" in desk.text("#date"), f"the date is {desk.text('#date')}"
    desk.row_of(stand)
    wait("an aircraft of the new day is there", lambda: desk.shown(bar_of(number)))
    assert version_in(desk.text("#link")) == room.version()


def following(room):
    """For hours the present minute stays at a third; a person who scrolls away is left alone, comes back by one key, and otherwise after a time."""
    desk = room.desk()
    place = wait("the present minute is in sight", lambda: now_at(desk))
    for _ in range(6):
        room.move(minutes=37)
        wait(f"at {clock_of(room.now())} the present minute is where it was", lambda: is_at(desk, place), 8)
    assert is_third(desk), "the present minute is not at a third"
    assert desk.attribute("#chart", "data-follow") == "true"
    desk.keys("}")
    wait("it follows no longer", lambda: desk.attribute("#chart", "data-follow") == "false")
    start = start_of(desk)
    room.move(minutes=2)
    time.sleep(1)
    assert abs(start_of(desk) - start) <= 1, "it scrolls although a person scrolled away"
    desk.keys("0")
    wait("the present minute is at a third", lambda: is_third(desk), 5)
    x, y = desk.middle("#rows .track")
    desk.page.wheel(x, y, across=900)
    wait("it follows no longer", lambda: desk.attribute("#chart", "data-follow") == "false")
    room.move(minutes=70)
    wait("it follows again by itself", lambda: desk.attribute("#chart", "data-follow") == "true" and is_third(desk))


def axis(room):
    """Any window of 2 to 36 hours, over midnight: scrolled and zoomed by wheel, drag and keys, and the days that come into sight are read."""
    desk = room.desk()
    for _ in range(20):
        desk.keys("+")
    wait("two hours are in sight", lambda: hours_of(desk) == 2, 5)
    for _ in range(30):
        desk.keys("-")
    wait("36 hours are in sight", lambda: hours_of(desk) == 36, 5)
    desk.fill("#filter", "K")
    desk.run("document.activeElement.blur()")
    x, y = desk.middle("#rows .track")
    desk.page.wheel(x, y, down=-300, modifiers=CONTROL)
    wait("a wheel with Ctrl zooms", lambda: hours_of(desk) < 36, 5)
    start = start_of(desk)
    desk.page.wheel(x, y, down=400, modifiers=SHIFT)
    wait("a wheel with Shift scrolls in time", lambda: abs(start_of(desk) - start) > 10, 5)
    start = start_of(desk)
    box = desk.place_of("#scale")
    desk.page.drag_through([(x, box["y"] + 6), (x - 150, box["y"] + 6), (x - 300, box["y"] + 6)])
    wait("a drag of the ruler scrolls in time", lambda: start_of(desk) - start > 10, 5)
    desk.fill("#filter", "")
    number = room.asked.post("/visits", {"name": "DAYFIVE", "type": "A320", "class": 3, "on": 4 * 1440 + 600, "off": 4 * 1440 + 700})[1]["visit"]
    room.asked.post("/commits", {"desk": "OTHER", "draft": 1, "base": room.version(), "edits": [{"put": {"visit": number, "part": 1, "stand": "A1"}}]})
    desk.run("const it = document.getElementById('pickdate'); it.value = '2026-07-05'; it.dispatchEvent(new Event('input', { bubbles: true })); it.dispatchEvent(new Event('change', { bubbles: true }))")
    wait("the date picker goes to the day", lambda: abs(start_of(desk) - 4 * 1440) < 900 and desk.count(bar_of(number)))


def five_days(room):
    """Five presses of 'next day' are five days, with a server that takes three seconds."""
    desk = room.desk(f"?day={DAY}")
    shown = lambda: int(re.search(r"\d+", desk.text("#date"))[0])
    day = shown()
    room.proxy.slow = 3
    desk.keys("]", "]", "]", "]", "]")
    with contextlib.suppress(AssertionError):
        wait("it is five days on", lambda: shown() == day + 5, 10)
    assert shown() == day + 5, f"after five presses it is {shown() - day} days on"


def wall(room):
    """The board for the wall has no way to change the plan, no cursor, larger type, and takes frontages; it follows and stays."""
    plain = room.desk()
    size = plain.run("return parseFloat(getComputedStyle(document.querySelector('.bar')).fontSize)")
    desk = room.desk("?wall&frontage=AN,AS")
    assert desk.count(".wall"), "it is no board for a wall"
    assert desk.run("return parseFloat(getComputedStyle(document.querySelector('.bar')).fontSize)") > size, "its type is not larger"
    names = set(desk.texts(".row .stand b"))
    wanted = {it["name"] for it in room.airport.stands if it["frontage"] in ("AN", "AS")}
    assert names and names <= wanted, f"it has {sorted(names - wanted)}"
    assert desk.run("return getComputedStyle(document.getElementById('chart')).cursor") == "none"
    for key in "tnozvpmg":
        desk.keys(key)
    x, y = desk.middle(".bar.expected")
    desk.page.click_at(x, y, clicks=2)
    desk.page.drag_through([(x, y), (x + 60, y + 90), (x + 90, y + 200)])
    for selector in ("#dialog[open]", "#menu button", "#draft li", ".picked", "button.edit", "#send"):
        assert not desk.shown(selector), f"it has {selector}"
    room.move(minutes=50)
    wait("it follows", lambda: is_third(desk))
    assert not [it for it in room.proxy.asked if it[1] == "POST"], "it sent something"


def keeps(room):
    """A new version leaves scroll positions, focus, a half-typed message and an open menu as they are."""
    desk = room.desk()
    desk.run("document.getElementById('chart').scrollTop = 260")
    assert desk.run(SCROLLED + "it.scrollTop = 40; return it.scrollTop") == 40, "the waiting list does not scroll"
    desk.keys("t")
    desk.fill("#f-text", "MVT HALF TYP")
    change(room)
    wait("the new version is there", lambda: version_in(desk.text("#link")) == room.version())
    room.move(minutes=1)
    time.sleep(1)
    assert desk.run("return document.activeElement.id") == "f-text" and desk.run("return document.getElementById('f-text').value") == "MVT HALF TYP"
    assert desk.run("return document.getElementById('chart').scrollTop") == 260, "the chart was scrolled"
    assert desk.run(SCROLLED + "return it.scrollTop") == 40, "the waiting list was scrolled"
    desk = room.desk()
    desk.click(".bar.expected", clicks=2)
    wait("there is a menu", lambda: desk.shown("#menu button"))
    change(room)
    wait("the new version is there", lambda: version_in(desk.text("#link")) == room.version())
    assert desk.shown("#menu button"), "the menu is gone"


def change(room):
    """An entry that changes a visit of the day."""
    visit, stand = room.placeable()
    code, _ = room.asked.post("/commits", {"desk": "OTHER", "draft": room.version(), "base": room.version(), "edits": [{"put": {"visit": visit["visit"], "part": 1, "stand": stand}}]})
    assert code == 200
    return visit


def shift(room):
    """A shift of eight hours, played in minutes: arrivals, departures, messages and commits; at its end the picture is the plan's, and the page holds no more than at its beginning."""
    desk = room.desk()
    early = None
    for step in range(SHIFT_HOURS * 60 // STEP):
        room.move(minutes=STEP)
        happen(room)
        if step == 5:
            wait("the picture is of the plan", lambda: version_in(desk.text("#link")) == room.version())
            early = desk.page.heap()
        time.sleep(0.2)
    wait("the picture is of the plan", lambda: version_in(desk.text("#link")) == room.version())
    wait("the present minute is at a third", lambda: is_third(desk))
    states = desk.run("return Object.fromEntries([...document.querySelectorAll('.bar')].map((it) => [it.dataset.key, it.dataset.how]))")
    for key, how in states.items():
        state = room.visit(int(key.split(".")[0]))["state"]
        assert state == {"overdue": "onblock"}.get(how, how), f"{key} is {how}, and {state} in the plan"
    late = desk.page.heap()
    told = f"{room.version()} versions; {early[0] / 1e6:.1f} MB and {early[1]['nodes']} nodes after half an hour, {late[0] / 1e6:.1f} MB and {late[1]['nodes']} nodes at the end"
    assert late[0] - early[0] < MOST_GROWTH and late[1]["nodes"] < 2 * early[1]["nodes"], told
    return told


def happen(room):
    """Reports what is due in the last minutes, and now and then a message."""
    now = room.now()
    for visit in room.visits(now // 1440 + 1):
        part = visit["parts"][0]
        if visit["state"] == "expected" and part["stand"] and now - STEP <= part["from"] <= now:
            room.asked.post("/reports", {"visit": visit["visit"], "on": {"part": 1, "stand": part["stand"], "minute": part["from"]}})
        elif visit["state"] == "onblock" and visit["parts"][-1]["to"] <= now and visit["visit"] % 7:
            room.asked.post("/reports", {"visit": visit["visit"], "off": {"minute": visit["parts"][-1]["to"]}})
    room.entry(now % 1000)


TRIALS = (midnight, following, axis, five_days, wall, keeps, shift)
