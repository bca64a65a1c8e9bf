"""Trials of what a board shows and changes: the chart, a drag, a refusal, and what other clients and messages do meanwhile."""

import re
import time

from board_trials.desk import bar_of, wait, waiting_item
from board_trials.plan import DAY, flight_of, message_of
from board_trials.room import clock_of, version_in

# Each bar of the chart by its key, as it is read row by row over the whole day.
ROWS = """
  const chart = document.getElementById("chart"); const rows = new Map();
  const frame = () => new Promise((go) => requestAnimationFrame(() => requestAnimationFrame(go)));
  const pages = chart.dataset.pm ? [0, 1, 2, 3] : [0];
  for (const page of pages) {
    if (chart.dataset.pm) { chart.scrollLeft += (args[0] + page * 360 - chart.dataset.start) * chart.dataset.pm; await frame(); }
    for (let top = 0; ; top += chart.clientHeight / 2) {
      chart.scrollTop = top; await frame();
      for (const row of document.querySelectorAll(".row")) {
        const at = Number(row.getAttribute("aria-rowindex"));
        if (!rows.has(at)) rows.set(at, { name: row.querySelector(".stand b").textContent, bars: {} });
        for (const bar of row.querySelectorAll(".bar")) {
          rows.get(at).bars[bar.dataset.key] = { label: bar.getAttribute("aria-label"), how: bar.dataset.how ?? bar.classList[1],
            from: Number(bar.dataset.from), to: Number(bar.dataset.to), left: parseFloat(bar.style.left) * 14.4, width: parseFloat(bar.style.width) * 14.4 };
        }
      }
      if (top > chart.scrollHeight) break;
    }
  }
  return [...rows].sort((a, b) => a[0] - b[0]).map(([, row]) => row);
"""


def wanted_bars(room):
    """The parts of the day that hold a stand: the stand, the visit and the part, by key."""
    begins, ends, wanted = (DAY - 1) * 1440, DAY * 1440, {}
    for visit in room.visits():
        for number, part in enumerate(visit["parts"], 1):
            if part["stand"] is not None:
                buffer = room.airport.stands[room.airport.stand_of[part["stand"]]]["buffer"]
                if part["from"] < ends and part["to"] + buffer > begins:
                    wanted[f"{visit['visit']}.{number}"] = part["stand"], visit, part
    return wanted


def chart(room):
    """The rows are the airport's stands, and the bars are the parts of /day/2, each with its state, flight, type and minutes."""
    rows = room.desk(f"?day={DAY}").run(ROWS, (DAY - 1) * 1440)
    frontages = dict.fromkeys(it["frontage"] for it in room.airport.stands)
    names = [it["name"] for frontage in frontages for it in room.airport.stands if it["frontage"] == frontage]
    assert [row["name"] for row in rows] == names, f"the rows are {[row['name'] for row in rows][:9]} .."
    wanted = wanted_bars(room)
    found = {key: (row["name"], bar) for row in rows for key, bar in row["bars"].items()}
    assert set(wanted) <= set(found), f"bars that are missing: {sorted(set(wanted) - set(found))[:9]}"
    now = room.now()
    for key, (stand, visit, part) in wanted.items():
        name, bar = found[key]
        how = {"gone": "gone", "onblock": "overdue" if part["to"] < now else "onblock"}.get(visit["state"], "expected")
        assert name == stand and bar["how"] == how, f"{key} is on {name} and {bar['how']}, not on {stand} and {how}"
        assert bar["label"].startswith(f"{flight_of(visit)}, {visit['type']}, {how.replace('onblock', 'on block')}, {stand}"), f"{key} is called {bar['label']}"
        assert (bar["from"], bar["to"]) == (part["from"], part["to"]), f"{key} is drawn from {bar['from']} to {bar['to']}"
    return f"{len(rows)} rows, {len(wanted)} bars of the day"


def taken(room):
    """An unallocated part is dragged to a stand where the page shows that it fits, the draft is published, and the server has it."""
    visit, stand = room.placeable()
    desk = room.desk()
    desk.drag(waiting_item(visit["visit"]), stand)
    wait("the draft has it", lambda: stand in desk.text("#draft li"), 5)
    wait("the page says that it fits", lambda: "Fits" in desk.text("#draft"), 5)
    desk.publish()
    wait("the server has it", lambda: room.stand_of(visit["visit"]) == stand)
    wait("the draft is empty", lambda: not desk.count("#draft li"))


def refused(room):
    """A part is dragged where another stands: the refusal names the edit, both aircraft, the minute and the rule, at the bar, and frames both."""
    for visit in room.waiting():
        stand = room.stand_for(visit, lambda it: it not in (None, "unfit") and it[0] == "same")
        if stand is not None:
            break
    desk = room.desk()
    desk.drag(waiting_item(visit["visit"]), stand)
    before = room.version()
    desk.publish()
    words = wait("a refusal is told", lambda: desk.shown("#bubble") and desk.text("#bubble p"))
    code, reply = room.asked.post("/commits", {"desk": "OTHER", "draft": 1, "base": before, "edits": [{"put": {"visit": visit["visit"], "part": 1, "stand": stand}}]})
    assert code == 422 and reply["error"] == "clash", f"the server says {reply}"
    pair = [room.visit(reply[it]["visit"]) for it in "ab"]
    for word in ["edit 1", *map(flight_of, pair), clock_of(reply["minute"]), "both on one stand"]:
        assert word in words, f"the refusal does not say {word}: {words}"
    assert room.version() == before, "a refused draft changed the plan"
    bar, bubble = desk.place_of(bar_of(visit["visit"])), desk.place_of("#bubble")
    assert abs(bubble["y"] - bar["y"]) < 150 and bubble["x"] - 20 <= bar["x"] + bar["width"], f"the words are at {bubble}, the bar at {bar}"
    for it in pair:
        assert desk.count(f"{bar_of(it['visit'])}.blamed"), f"the bar of {flight_of(it)} has no frame"
    return words


def pressed(room):
    """A press of the mouse during which another client changes the plan is a click as any: the part is picked, and the new picture comes after it."""
    desk = room.desk()
    for number, selector in enumerate((".bar.expected", ".wait"), 1):
        key, version = desk.key_of(selector), room.version()
        selector = f'{selector}[data-key="{key}"]'
        place = desk.middle(selector)
        desk.page.press(*place)
        room.entry(number)
        # The page has asked for the version by then, and read the day.
        time.sleep(1.2)
        desk.page.release(*place)
        wait("the part is picked", lambda: desk.count(f'.picked[data-key="{key}"]'), 3)
        wait("the new picture is there", lambda: (version_in(desk.text("#link")) or 0) > version, 3)
        desk.keys("Escape")


def over_midnight(room):
    """A part that lasts over midnight: where it fits is judged by both days."""
    desk = room.desk()
    room.move(minutes=10 * 60 + 40)
    among = room.visits(DAY, DAY + 1)
    visit = next(it for it in among if it["state"] == "expected" and it["parts"][0]["stand"] and it["parts"][0]["to"] > DAY * 1440 + 200 and it["parts"][0]["from"] > room.now())
    desk.row_of(visit["parts"][0]["stand"])
    desk.click(bar_of(visit["visit"]))
    rows = wait("each row says whether it fits", lambda: desk.run("""
        const rows = [...document.querySelectorAll(".row")].filter((it) => it.querySelector(".spot"));
        return rows.length && !rows.some((it) => /not read|on this day|judged/.test(it.textContent))
          ? rows.map((it) => [it.querySelector(".stand b").textContent, it.classList.contains("fits") || it.querySelector(".spot.fits") !== null]) : null;"""))
    for stand, fits in rows:
        if stand != visit["parts"][0]["stand"]:
            assert fits == (room.verdict(visit, stand, among) is None), f"{visit['name']} on {stand}: the page says {fits}"
    return f"{sum(fits for _, fits in rows)} of {len(rows)} stands fit"


def both_see(room):
    """Two browsers: what one publishes the other shows within two seconds, and marks it."""
    one, other = room.desk(name="ANNA"), room.desk(name="BERT")
    times = []
    for desk, watcher in ((one, other), (other, one)):
        visit, stand = room.placeable()
        watcher.row_of(stand)
        watcher.run("document.getElementById('chart').scrollLeft += (args[0] - 60 - document.getElementById('chart').dataset.start) * document.getElementById('chart').dataset.pm", visit["on"])
        desk.drag(waiting_item(visit["visit"]), stand)
        desk.publish()
        wait("the server has it", lambda: room.stand_of(visit["visit"]) == stand)
        begun = time.monotonic()
        wait("the other shows and marks it", lambda: watcher.count(f"{bar_of(visit['visit'])}.marked"), 4)
        times.append(time.monotonic() - begun)
    assert max(times) < 2, f"it took {times} s"
    return " and ".join(f"{it:.2f} s" for it in times)


def overtaken(room):
    """A draft of a visit that another client edits meanwhile is refused as overtaken; after a look again it is taken."""
    one, other = room.desk(name="ANNA"), room.desk(name="BERT")
    visit, stand = room.placeable()
    one.drag(waiting_item(visit["visit"]), stand)
    other.drag(waiting_item(visit["visit"]), stand)
    other.publish()
    wait("the server has it", lambda: room.stand_of(visit["visit"]) == stand)
    wait("the first says that it is overtaken", lambda: "Overtaken" in one.text("#draft"))
    one.publish()
    words = wait("it is refused", lambda: one.shown("#bubble") and one.text("#bubble p"))
    assert re.search(r"changed by (another client|client BERT-[A-Z]{6}) in version", words), words
    before = room.version()
    one.click("#again")
    wait("the draft fits again", lambda: "Fits" in one.text("#draft"))
    one.publish()
    wait("it is taken", lambda: room.version() == before + 1)
    wait("the draft is empty", lambda: not one.count("#draft li"))


def bump(room):
    """A message that lets a part lose its stand is taken in by the dialogue, which asks first, and the waiting list tells stand, minute and blocker."""
    desk = room.desk()
    version = room.version()
    visit, late, other = bumping(room)
    desk.keys("t")
    desk.fill("#f-text", message_of(visit, late).decode().rstrip("\n"))
    desk.click("#dialog button[type=submit]")
    wait("it asks, or it is an entry", lambda: desk.shown("#yes") or room.version() > version)
    if desk.shown("#yes"):
        desk.click("#yes")
    wait("it is an entry", lambda: room.version() > version)
    lost = room.visit(other["visit"])["parts"][0]
    assert lost["bump"] is not None, f"visit {other['visit']} kept its stand"
    words = wait("the list tells it", lambda: desk.text(f'{waiting_item(other["visit"])} em'))
    minute = lost["bump"]["minute"]
    for word in (f"lost {lost['bump']['stand']}", flight_of(visit), clock_of(minute)):
        assert word in words, f"the list does not say {word}: {words}"
    return words


def bumping(room):
    """A visit, a minute of touchdown, and the visit after it on its stand, which would lose that to it."""
    placed = [it for it in room.visits() if it["state"] == "expected" and it["parts"][0]["stand"] and len(it["parts"]) == 1]
    for visit in placed:
        if visit["arr"] and visit["arr"]["day"] >= 1 and visit["parts"][0]["from"] > room.now() + 60 and visit["parts"][0]["to"] < 2 * 1440 - 200:
            for other in placed:
                part = other["parts"][0]
                after = part["stand"] == visit["parts"][0]["stand"] and 0 < part["from"] - visit["parts"][0]["to"] < 60
                if after and (visit["class"], visit["on"]) < (other["class"], other["on"]):
                    return visit, part["from"] - 9 - 20, other
    raise AssertionError("no two visits are so near")


def overlaps(room):
    """Three aircraft that are on one stand are three lines, of which none covers another."""
    now = room.now()
    stand = room.airport.stands[2]["name"]
    numbers = []
    for name in ("OVER-A", "OVER-B", "OVER-C"):
        number = room.asked.post("/visits", {"name": name, "type": "A320", "class": 3, "on": now - 40, "off": now + 60})[1]["visit"]
        assert room.asked.post("/reports", {"visit": number, "on": {"part": 1, "stand": stand, "minute": now - 40}})[0] == 200
        numbers.append(number)
    desk = room.desk()
    desk.row_of(stand)
    places = sorted((desk.place_of(bar_of(it)) for it in numbers), key=lambda it: it["top"])
    assert all(above["bottom"] <= below["top"] + 1 for above, below in zip(places, places[1:])), [(round(it["top"]), round(it["bottom"])) for it in places]
    assert all(it["height"] >= 5 for it in places), f"the lines are {[round(it['height']) for it in places]} pixels high"


TRIALS = (chart, taken, refused, pressed, over_midnight, both_see, overtaken, bump, overlaps)
