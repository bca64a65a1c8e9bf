"""Trials of drafts: by keys, in two tabs, over reloads, over days, over a crash, and while the server or its replies are lost."""

import contextlib
import os
import shutil
import time

from board_trials import chromium
from board_trials.desk import bar_of, wait, waiting_item
from board_trials.plan import flight_of

FIRST_FREE, DAYS = 3, 10
# Chromium writes what a page keeps five seconds after the first change, and much later after others that come soon: so the page has no other.
WRITTEN = 10
LATE_LOCKS = """
  const ask = navigator.locks.request.bind(navigator.locks);
  navigator.locks.request = async (...words) => { await new Promise((go) => setTimeout(go, 400)); return ask(...words); };
"""


def chosen(desk):
    """The key of the part that the list of unallocated parts has chosen."""
    return desk.run("""
      const it = document.activeElement; const led = document.getElementById(it.getAttribute("aria-activedescendant") ?? "");
      return (led ?? it).dataset.key ?? null;""")


def choose(desk, visit):
    """Goes to a part of the waiting list by keys."""
    desk.keys("w")
    for _ in range(400):
        if chosen(desk) == f"{visit}.1":
            return
        desk.keys("ArrowDown")
    raise AssertionError(f"the keys do not come to visit {visit}")


def drafted(desk, room, beside=()):
    """Has an unallocated part dragged to a stand on which it fits; the visit and the stand."""
    visit, stand = room.placeable(beside)
    desk.drag(waiting_item(visit["visit"]), stand)
    wait("the draft has it", lambda: any(flight_of(visit) in it for it in desk.texts("#draft li")), 8)
    return visit, stand


def taken_by(desk, room, visit, stand):
    wait("its edit is in the plan", lambda: room.stand_of(visit["visit"]) == stand)
    wait("the draft is empty", lambda: not desk.count("#draft li"))


def by_keys(room):
    """By the keyboard alone: an unallocated part is picked, put on the first stand that fits, undone, put again, and published."""
    desk = room.desk()
    version, visit = room.version(), room.waiting()[0]
    choose(desk, visit["visit"])
    desk.keys(" ")
    wait("a row is at hand", lambda: desk.count(".row.cursor.fits"))
    desk.keys("Enter")
    wait("the draft has it", lambda: desk.count("#draft li"))
    desk.keys("u")
    wait("it is undone", lambda: not desk.count("#draft li"))
    choose(desk, visit["visit"])
    desk.keys(" ")
    wait("a row is at hand", lambda: desk.count(".row.cursor.fits"))
    desk.shift("ArrowDown")
    stand = desk.text(".row.cursor.fits .stand b")
    desk.keys("Enter")
    desk.control("Enter")
    taken_by(desk, room, visit, stand)
    desk.keys("c", "ArrowDown", "ArrowUp", "Enter")
    wait("there is a menu", lambda: desk.shown("#menu button"))
    desk.keys("Escape")
    assert room.version() == version + 1


def tabs(room):
    """Two tabs of one name, one copied from the other with all that it keeps, and a reload: each has its own client, and no edit is lost."""
    desk = room.desk()
    taken_by(desk, room, *published(desk, room))
    name = desk.text("#draft h2 small")
    twin = room.twin(desk)
    assert twin.text("#draft h2 small") not in ("", name), f"the second tab is {name} too"
    for it in (twin, desk):
        # The list is drawn again after the other tab's draft, and a drag that has begun before would take another part.
        wait("the page has the other tab's draft", lambda: f"version {room.version()}" in it.text("#link"), 8)
        taken_by(it, room, *published(it, room))
    # A reload keeps the client, its count and the draft that is not published.
    visit, stand = drafted(desk, room)
    desk.reload()
    wait("the draft is there again", lambda: desk.count("#draft li"))
    assert desk.text("#draft h2 small") == name, "a reload made another client"
    desk.publish()
    taken_by(desk, room, visit, stand)
    # A count that went back, as after a crash of the browser: the number's first draft is recognised, and no edit is lost.
    visit, stand = room.placeable()
    desk.run("sessionStorage.setItem('apron / desk', JSON.stringify({ name: args[0], drafts: 0 }))", name)
    desk.reload()
    drafted(desk, room)
    desk.publish()
    taken_by(desk, room, visit, stand)
    assert desk.text("#draft h2 small") != name, "the desk is the one whose count went back"
    return name


def published(desk, room):
    visit, stand = drafted(desk, room)
    desk.publish()
    return visit, stand


def pending_over_reload(room):
    """A draft on its way is asked for again after a reload, by the same bytes."""
    desk = room.desk()
    before = room.version()
    visit, stand = drafted(desk, room)
    room.server.kill()
    desk.publish()
    wait("no reply came", lambda: "No reply" in desk.text("#draft") or "same bytes" in desk.text("#draft"))
    sent = room.kept(desk, "sessionStorage", "draft")["pending"]["body"]
    desk.reload(bars=False)
    room.server.start()
    wait("its edit is in the plan", lambda: room.stand_of(visit["visit"]) == stand, 40)
    assert room.asked.post("/commits", sent.encode()) == (200, {"version": before + 1}), "the bytes that were sent are not those of the entry"


def late_locks(room):
    """Where the browser gives the lock of a name late, as under load, a copied tab has another name, and no edit is lost."""
    desk = room.desk(None)
    desk.page.before_scripts(LATE_LOCKS)
    desk.open()
    wait("it has a name", lambda: desk.text("#draft h2 small"))
    twin = room.twin(desk)
    name = wait("the second tab has a name", lambda: twin.text("#draft h2 small"))
    assert name != desk.text("#draft h2 small"), f"both tabs are {name}"
    for it in (desk, twin):
        taken_by(it, room, *published(it, room))


def compared(room):
    """A reply 200 to a draft whose edits are not in the plan, since the number was used, is not taken for theirs: the edits come in under another."""
    desk = room.desk()
    taken_by(desk, room, *published(desk, room))
    name = desk.text("#draft h2 small")
    wrong = {"desk": name, "draft": 2, "base": room.version(), "edits": [{"lift": {"visit": room.waiting()[-1]["visit"], "part": 1}}]}
    assert room.asked.post("/commits", wrong)[0] == 200
    taken_by(desk, room, *published(desk, room))


def fits(desk):
    """Waits until the board says that the draft would be taken."""
    with contextlib.suppress(AssertionError):
        wait("it would be taken", lambda: "Fits" in desk.text("#draft"))
    assert "Fits" in desk.text("#draft"), f"the draft is called {desk.texts('#draft p')}"


def ten_days(room):
    """A draft over ten days is judged by all of them, also after a reload and a look again, and is one entry."""
    wanted = {}
    for day in range(FIRST_FREE, FIRST_FREE + DAYS):
        visit = {"name": f"TEN-{day}", "type": "A320", "class": 5, "on": (day - 1) * 1440 + 600, "off": (day - 1) * 1440 + 700}
        wanted[room.asked.post("/visits", visit)[1]["visit"]] = room.airport.stands[day]["name"]
    desk = room.desk(f"?day={FIRST_FREE}", bars=False)
    for number, stand in wanted.items():
        wait("the waiting part is there", lambda number=number: desk.count(waiting_item(number)))
        desk.drag(waiting_item(number), stand)
        desk.keys("]")
    wait("the draft has ten edits", lambda: desk.count("#draft li") == DAYS, 5)
    for _ in range(2):
        fits(desk)
        desk.reload(bars=False)
        wait("the draft is there after the reload", lambda: desk.count("#draft li") == DAYS)
        desk.keys("g")
        time.sleep(1)
        assert desk.count("#draft li") == DAYS, f"after a look again the draft has {desk.count('#draft li')} edits"
    before = room.version()
    fits(desk)
    desk.publish()
    wait("all are on their stands", lambda: {it: room.stand_of(it) for it in wanted} == wanted)
    assert room.version() == before + 1


def dropped(room):
    """What a look again drops from a draft, since the visit was cancelled meanwhile, is named."""
    desk = room.desk()
    visit, _ = drafted(desk, room)
    other, _ = drafted(desk, room, {visit["visit"]})
    assert room.asked.post("/cancels", {"visit": visit["visit"]})[0] == 200
    wait("the page says that it would be refused", lambda: "refused" in desk.text("#draft") or "gone" in desk.text("#draft") or "cancelled" in desk.text("#draft"))
    desk.keys("g")
    wait("one edit is left", lambda: desk.count("#draft li") == 1)
    told = wait("the dropped edit is named", lambda: [it for it in (desk.text("#say"), desk.text("#draft")) if flight_of(visit) in it], 6)
    assert flight_of(other) in desk.text("#draft li"), "the other edit is gone"
    return told[0].strip()[:120]


def asks_at_closing(room):
    """A tab with a draft asks before it is closed or left; one without does not."""
    desk = room.desk()
    desk.reload()
    asked = lambda: [it for it in desk.page.seen("Page.javascriptDialogOpening") if it["type"] == "beforeunload"]
    assert not asked(), "it asks without a draft"
    drafted(desk, room)
    desk.reload()
    wait("it asks", asked, 5)


def crashed(room):
    """After the browser has crashed, the next start offers the draft of the client, and takes it up."""
    profile = os.path.join(room.folder, "profile")
    own = chromium.Chromium(chromium.found(), profile)
    room.browser = own
    try:
        desk = room.desk(context="", is_fresh=True)
        visit, stand = drafted(desk, room)
        time.sleep(WRITTEN)
        own.kill()
        room.desks.clear()
        own = room.browser = chromium.Chromium(chromium.found(), profile)
        desk = room.desk(context="")
        wait("the draft is offered", lambda: desk.shown("#recovered #take"))
        desk.click("#recovered #take")
        wait("the draft is there", lambda: any(flight_of(visit) in it for it in desk.texts("#draft li")))
        desk.publish()
        taken_by(desk, room, visit, stand)
    finally:
        room.desks.clear()
        own.end()


def server_away(room):
    """The server is killed and started again: the page says so and how old its picture is, keeps the picture, and a draft that was sent meanwhile is taken once."""
    desk = room.desk()
    before, bars = room.version(), desk.count(".bar")
    visit, stand = drafted(desk, room)
    room.server.kill()
    wait("the page says how old the picture is", lambda: "old" in desk.text("#link") + desk.text("#trouble"))
    assert desk.count(".bar") >= bars, "the picture is gone"
    desk.publish()
    wait("it says that no reply came", lambda: "No reply" in desk.text("#draft") or "same bytes" in desk.text("#draft"))
    time.sleep(2)
    room.server.start()
    wait("the page is there again", lambda: "version" in desk.text("#link") and not desk.text("#trouble").strip())
    taken_by(desk, room, visit, stand)
    assert room.version() == before + 1, "it was taken more than once"


def lost_replies(room):
    """Replies that are lost after the server took a draft, a report and a message: each is one entry, and the page goes on."""
    desk = room.desk()
    before = room.version()
    visit, stand = drafted(desk, room)
    room.proxy.fail("^POST /commits", "late", 2)
    desk.publish()
    taken_by(desk, room, visit, stand)
    assert room.version() == before + 1, "the draft is not one entry"
    desk.keys("c")
    desk.row_of(stand)
    desk.click(bar_of(visit["visit"]))
    desk.keys("Escape")
    for key, selector, target in (("o", "#f-stand", "/reports"), ("t", "#f-text", "/mvt")):
        desk.keys(key)
        desk.one(selector)
        if key == "t":
            desk.fill(selector, "MVT\nXY1/02.DABCD.XXX\nEA0900 LRG")
        before = room.version()
        room.proxy.fail(f"^POST {target}", "late", 1)
        desk.click("#dialog button[type=submit]")
        with contextlib.suppress(AssertionError):
            wait("it asks", lambda: desk.shown("#yes"), 2)
            desk.click("#yes")
        wait("the dialogue ends", lambda: not desk.count("#dialog[open]"), 40)
        assert room.version() == before + 1, f"by {key} it is {room.version() - before} entries: {[it[1:4] for it in room.proxy.asked if it[1] == 'POST']}"


def older(room):
    """A server that comes back with an older plan: the page says that it has lost something, and keeps its picture until a person goes on."""
    desk = room.desk()
    server = room.server
    shutil.copy(server.journal, server.journal + ".old")
    visit, stand = published(desk, room)
    taken_by(desk, room, visit, stand)
    desk.row_of(stand)
    wait("the bar is there", lambda: desk.count(bar_of(visit["visit"])))
    version = room.version()
    server.kill()
    os.replace(server.journal + ".old", server.journal)
    server.start()
    wait("the page says so", lambda: "lost something" in desk.text("#trouble"))
    desk.reload(bars=False)
    wait("the page says so after a reload", lambda: "lost something" in desk.text("#trouble"))
    assert not desk.count(".bar"), "an older picture is shown"
    desk.click("#trouble button")
    wait("the older plan is shown", lambda: desk.count(".bar") and f"version {version - 1}" in desk.text("#link"))
    assert not desk.count(bar_of(visit["visit"])), "the bar is still there"


TRIALS = (by_keys, tabs, pending_over_reload, late_locks, compared, ten_days, dropped, asks_at_closing, crashed, server_away, lost_replies, older)
