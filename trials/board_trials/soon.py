"""Trials of what a board tells beforehand: delays, what is late, Soon, events, closures and shadows."""

import time

from board_trials.desk import bar_of, wait, waiting_item
from board_trials.plan import DAY, flight_of, message_of
from board_trials.basic import bumping




def to_minute(desk, minute):
    """Brings a minute into sight, near the left of the chart."""
    desk.run("const chart = document.getElementById('chart'); chart.scrollLeft += (args[0] - 60 - chart.dataset.start) * chart.dataset.pm;"
             " await new Promise((go) => requestAnimationFrame(() => requestAnimationFrame(go)))", minute)


def seen_bar(desk, room, number):
    """Brings the first part of a visit into sight; its selector."""
    part = room.visit(number)["parts"][0]
    to_minute(desk, part["from"])
    desk.row_of(part["stand"])
    wait("the bar is in sight", lambda: desk.count(bar_of(number)))
    return bar_of(number)


def free_stand(room, begins, ends, kind="A320"):
    """A stand that an aircraft of a type could have between two minutes."""
    asked = {"visit": 0, "type": kind, "parts": [{"from": begins, "to": ends}]}
    among = room.visits(DAY, DAY + 1)
    return next(it["name"] for it in room.airport.stands if room.verdict(asked, it["name"], among) is None)


def add(room, name, begins, ends, kind="A320", rank=3, **more):
    code, reply = room.asked.post("/visits", {"name": name, "type": kind, "class": rank, "on": begins, "off": ends, **more})
    assert code == 200, f"{name} is answered {reply}"
    return reply["visit"]


def put(room, number, stand):
    code, reply = room.asked.post("/commits", {"desk": "OTHER", "draft": room.version() + 1, "base": room.version(), "edits": [{"put": {"visit": number, "part": 1, "stand": stand}}]})
    assert code == 200, f"visit {number} on {stand} is answered {reply}"


def come(room, number, stand, minute):
    code, reply = room.asked.post("/reports", {"visit": number, "on": {"part": 1, "stand": stand, "minute": minute}})
    assert code == 200, f"visit {number} on block on {stand} is answered {reply}"


def delays(room):
    """A delay and an early arrival are minutes at the bar, in colour and shape, with a ghost of the old place; a stay that became shorter is marked."""
    desk = room.desk("?hours=6")
    now, told = room.now(), {}
    for number, (late, how) in enumerate(((60, "on-verylate"), (20, "on-late"), (-15, "on-early"))):
        begins = now + 120
        visit = add(room, f"LATE-{number}", begins, begins + 75, arr={"flight": f"QQ{number + 1}", "day": DAY})
        put(room, visit, free_stand(room, begins - 20, begins + 160))
        code, _ = room.asked.post("/mvt", message_of(room.visit(visit), begins + late - 9))
        assert code == 200 and room.visit(visit)["parts"][0]["from"] == begins + late
        bar = seen_bar(desk, room, visit)
        wait(f"the bar says {late:+}", lambda bar=bar, late=late: f"{abs(late)}" in desk.text(f"{bar} .delay"))
        wait(f"it is drawn as {how}", lambda bar=bar, how=how: desk.count(f"{bar}.{how}"), 5)
        wait("its old place is there", lambda bar=bar, begins=begins: desk.run(
            "return document.querySelector(args[0]).closest('.row').querySelector(`.sched[data-from='${args[1]}']`) !== null", bar, begins), 5)
        told[late] = desk.text(f"{bar} .delay")
    assert desk.count(".bar.short"), "the stay that became shorter is not marked"
    return told


def late_here(room):
    """An arrival that should have been on block and is not is 'late, not here yet'."""
    number = add(room, "NOTHERE", room.now() + 5, room.now() + 105)
    put(room, number, free_stand(room, room.now() - 60, room.now() + 140))
    desk = room.desk()
    bar = seen_bar(desk, room, number)
    assert not desk.count(f"{bar}.late"), "it is called late before its time"
    room.move(minutes=12)
    wait("it is late", lambda: desk.count(f"{bar}.late"))
    assert "not here" in desk.attribute(bar, "aria-label"), desk.attribute(bar, "aria-label")


def warning_of(number):
    """The selector of the warning about the first part of a visit."""
    return f'#soonlist li:has([data-goto="{number}.1"])'


def soon(room):
    """Soon: a stand that is still occupied when the next aircraft is due, amber and then red, a part without a stand whose time comes, each with the stands that fit."""
    now = room.now()
    stand = free_stand(room, now - 80, now + 200)
    first, after, without = add(room, "STAYS", now - 60, now + 20), add(room, "AFTER", now + 45, now + 120), add(room, "WITHOUT", now + 40, now + 110)
    put(room, first, stand)
    put(room, after, stand)
    come(room, first, stand, now - 60)
    desk = room.desk()
    level = lambda number: desk.attribute(warning_of(number), "data-level")
    time.sleep(2)
    assert level(after) is None and level(without) is None, "it warns of what is far"
    room.move(minutes=22)
    wait("the next aircraft has an amber warning", lambda: level(after) == "amber")
    wait("the part without a stand has a warning", lambda: level(without) is not None)
    words = desk.text(warning_of(after))
    assert stand in words and "STAYS" in words, words
    assert desk.count(f"{warning_of(without)} .fit"), "no stand that fits is named"
    room.move(minutes=20)
    wait("the warning is red", lambda: level(after) == "red")
    room.asked.post("/reports", {"visit": first, "off": {"minute": now + 20}})
    wait("the warning is gone", lambda: level(after) is None)
    return words


def early_needs(room):
    """An overdue departure whose stand is needed by an arrival that is now expected earlier is warned of."""
    now = room.now()
    stand = free_stand(room, now - 120, now + 300)
    stays = add(room, "STAYS", now - 100, now - 5)
    comes = add(room, "COMES", now + 90, now + 190, arr={"flight": "QQ77", "day": DAY})
    put(room, stays, stand)
    put(room, comes, stand)
    come(room, stays, stand, now - 100)
    desk = room.desk()
    time.sleep(2)
    assert not desk.count(warning_of(comes))
    room.asked.post("/mvt", message_of(room.visit(comes), now + 20 - 9))
    wait("it is warned of", lambda: desk.count(warning_of(comes)))


def still_there(room):
    """An aircraft on block past its expected end still stands there: the board says so at the drop of another, asks, and does as it is told."""
    now = room.now()
    stand = free_stand(room, now - 120, now + 200)
    stays, comes = add(room, "STAYS", now - 110, now - 40), add(room, "COMES", now + 10, now + 90)
    put(room, stays, stand)
    come(room, stays, stand, now - 110)
    desk = room.desk()
    for answer, edits in (("#no", 0), ("#yes", 1)):
        desk.drag(waiting_item(comes), stand)
        words = wait("it asks", lambda: desk.shown(answer) and desk.text("#dialog"))
        assert "STAYS" in words, words
        desk.click(answer)
        time.sleep(0.5)
        assert desk.count("#draft li") == edits, f"after {answer} the draft has {desk.count('#draft li')} edits"
    return words[:120]


def events(room):
    """A lost stand and an alarm are events: a banner with a count, the tab's title, 'seen' by whom, kept over a reload; past alarms open as a list."""
    desk = room.desk()
    see_all(desk)
    visit, late, other = bumping(room)
    room.asked.post("/mvt", message_of(visit, late))
    wait("the banner counts it", lambda: desk.shown("#events") and desk.text("#eventcount").strip() not in ("", "0"))
    count = int(desk.text("#eventcount"))
    assert flight_of(other) in desk.text("#events") or count > 1, desk.text("#events")
    assert f"({count})" in desk.run("return document.title"), desk.run("return document.title")
    now = room.now()
    stand = free_stand(room, now - 60, now + 100)
    pair = [add(room, name, now - 30, now + 30) for name in ("ONE", "TWO")]
    for number in pair:
        come(room, number, stand, now - 30)
    wait("the alarm is an event", lambda: int(desk.text("#eventcount") or 0) > count)
    assert "ONE" in desk.text("#alarms") and "TWO" in desk.text("#alarms"), desk.text("#alarms")
    count = int(desk.text("#eventcount"))
    desk.click("#seen")
    wait("one less is to be dealt with", lambda: int(desk.text("#eventcount") or 0) == count - 1)
    see_all(desk)
    desk.reload()
    time.sleep(2)
    assert not desk.shown("#events"), "after a reload they are unseen again"
    desk.keys("e")
    wait("the list says who saw them", lambda: desk.count("li.event") >= 2 and "ANNA" in desk.text("#dialog"))
    desk.keys("Escape")
    pressed = desk.attribute("#sound", "aria-pressed")
    desk.click("#sound")
    wait("the sound is switched", lambda: desk.attribute("#sound", "aria-pressed") != pressed)
    room.asked.post("/reports", {"visit": pair[0], "off": {"minute": now}})
    room.move(minutes=80)
    wait("the alarm is past", lambda: desk.shown("#past"))
    desk.click("#past")
    wait("the past alarm is listed", lambda: "ONE" in desk.text("#dialog"))


def see_all(desk):
    """Has the person see all events that are there; the banner and the count in the tab's title are then gone."""
    if desk.shown("#events"):
        desk.keys("e")
        desk.one("#dialog[open]")
        desk.run("[...document.querySelectorAll('#dialog button')].find((it) => /all/i.test(it.textContent)).click()")
    wait("all are seen", lambda: not desk.shown("#events") and "(" not in desk.run("return document.title"))


def closure(room):
    """A stand is closed for some minutes by the page, drawn as a closure, and opened again; what it displaces is told before."""
    desk = room.desk()
    now = room.now()
    stand = free_stand(room, now - 10, now + 160)
    desk.click('[data-do="close"]')
    desk.fill("#f-stand", stand)
    desk.fill("#f-minutes", "60")
    desk.click("#dialog button[type=submit]")
    number = wait("there is a closure", lambda: next((it["visit"] for it in room.visits() if it["name"].startswith("CLOSED-") and it["state"] != "cancelled" and it["parts"][0]["stand"] == stand), None))
    visit = room.visit(number)
    assert visit["class"] == 0 and visit["off"] - visit["on"] == 60 and len(visit["name"]) <= 12, visit
    bar = seen_bar(desk, room, number)
    wait("it is drawn as a closure", lambda: desk.count(f"{bar}.closure"))
    desk.click(bar, clicks=2)
    wait("the menu has a way to open it", lambda: any("pen" in it for it in desk.texts("#menu button")))
    desk.run("[...document.querySelectorAll('#menu button')].find((it) => /open/i.test(it.textContent)).click()")
    wait("it asks", lambda: desk.shown("#dialog[open]"))
    desk.click("#dialog button[type=submit]")
    wait("the stand is open", lambda: room.visit(number)["state"] == "cancelled")
    return visit["name"]


def displaced(room):
    """An aircraft that comes on block on a closed stand is an event."""
    desk = room.desk()
    see_all(desk)
    now = room.now()
    stand = free_stand(room, now - 10, now + 160)
    desk.click('[data-do="close"]')
    desk.fill("#f-stand", stand)
    desk.fill("#f-minutes", "90")
    desk.click("#dialog button[type=submit]")
    wait("there is a closure", lambda: any(it["name"].startswith("CLOSED-") and it["parts"][0]["stand"] == stand for it in room.visits()))
    time.sleep(2)
    number = add(room, "ASTRAY", now, now + 60)
    come(room, number, stand, now + 1)
    wait("it is an event", lambda: desk.shown("#events") and "CLOSED" in desk.text("#events"))
    return desk.text("#events")[:120]


def shadows(room):
    """A whole stand shows its halves' occupation and the reverse, and neighbours that a wide wing shuts out are hatched; both can be switched off."""
    desk = room.desk()
    halves = {it["name"]: it["half_of"] for it in room.airport.stands if it.get("half_of")}
    visit = next(it for it in room.visits() if it["parts"][0]["stand"] in halves and it["state"] == "expected" and it["parts"][0]["from"] > room.now())
    part = visit["parts"][0]
    to_minute(desk, part["from"])
    desk.row_of(halves[part["stand"]])
    place = room.airport.stand_of[halves[part["stand"]]]
    row = f'.row[data-stand="{place}"]'
    wait("the whole is hatched for the half's minutes", lambda: desk.run(
        "return [...document.querySelectorAll(`${args[0]} .shade.split`)].some((it) => Number(it.dataset.from) <= args[1] && Number(it.dataset.to) >= args[2])", row, part["from"], part["to"]))
    desk.keys(",")
    desk.one("#f-shadows")
    desk.run("document.getElementById('f-shadows').value = 'off'")
    desk.click("#dialog button[type=submit]")
    wait("no shadow is left", lambda: not desk.count(".shade"))


TRIALS = (delays, late_here, soon, early_needs, still_there, events, closure, displaced, shadows)
