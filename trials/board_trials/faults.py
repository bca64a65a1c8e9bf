"""Trials of a board that never lies: what comes that is not apron's, a slow server, a wrong clock, training, and what changed."""

import time

from board_trials.desk import bar_of, wait, waiting_item
from board_trials.plan import DAY, departure_of, flight_of
from board_trials.room import version_in
from board_trials.soon import add

OTHERS = ("other", "portal", "empty", "cut", "short", "wrong")
# What each status and want is called.
WORDS = {"401": "not allowed", "403": "forbidden", "404": "not found", "502": "gateway", "504": "gateway", "gone": "not there"}


def is_green(desk):
    return desk.count("#link.there") > 0


def follows(desk, room, patience=30.0):
    """Another client's entry comes to the board."""
    room.entry()
    version = room.version()
    wait(f"version {version} is shown", lambda: version_in(desk.text("#link")) == version and is_green(desk), patience)


def malformed_later(room):
    """Replies of status 200 that are not the server's, at any time: said in words, without a green dot; the picture stays with its age, and the asking goes on."""
    desk = room.desk()
    bars = desk.count(".bar")
    for kind in OTHERS:
        for route in ("version", "day"):
            if kind == "wrong" and route == "version":
                continue
            room.proxy.fail(f"^GET /{route}", kind)
            room.entry()
            wait(f"{kind} for {route} is said", lambda: not is_green(desk) and "old" in desk.text("#link") + desk.text("#trouble"))
            assert desk.count(".bar") >= bars - 9, f"the picture is gone at {kind} for {route}"
            room.proxy.heal()
            wait(f"after {kind} for {route} it goes on", lambda: is_green(desk) and version_in(desk.text("#link")) == room.version())


def malformed_at_load(room):
    """The same at load: words and no blank page with a green dot, and the board comes by itself once the replies are good."""
    for kind in ("other", "portal", "wrong"):
        for route in ("airport", "day"):
            room.proxy.fail(f"^GET /{route}", kind)
            desk = room.desk(bars=False)
            time.sleep(1.5)
            told = wait(f"{kind} for {route} is said", lambda: not is_green(desk) and (desk.text("#link") + desk.text("#trouble")).strip())
            room.proxy.heal()
            wait(f"after {kind} for {route} the board comes", lambda: desk.count(".bar") and is_green(desk))
            room.desks.remove(desk)
            desk.close()
    return told


def statuses(room):
    """Not allowed, forbidden, not found, a gateway's word and nobody there: each is said in its own words, and the board goes on afterwards."""
    desk = room.desk()
    for kind, word in WORDS.items():
        room.proxy.fail("^GET ", kind)
        wait(f"{kind} is called {word}", lambda: word in desk.text("#link") and not is_green(desk))
        room.proxy.heal()
        follows(desk, room, 30)


def slow_server(room):
    """A server that takes three seconds, and six, for each reply: it is called slow and never dead, and the picture still comes."""
    desk = room.desk()
    for seconds in (3, 6):
        room.proxy.slow = seconds
        room.entry()
        version, said, until = room.version(), set(), time.monotonic() + 14 * seconds
        while version_in(desk.text("#link")) != version:
            assert time.monotonic() < until, f"at {seconds} s a reply version {version} does not come: {desk.text('#link')}"
            said.add("slow" if "slow" in desk.text("#link") else "not there" if "not there" in desk.text("#link") else "")
            time.sleep(0.1)
        assert "not there" not in said, f"at {seconds} s a reply the server is called dead"
    assert "slow" in said, "it is not called slow"
    room.proxy.heal()
    follows(desk, room, 40)


def fault_in_page(room):
    """An error that nobody foresaw in a script of the page, thrown or of a promise: it is said, and the board follows on."""
    desk = room.desk()
    for script in ("setTimeout(() => { throw new TypeError('trial'); })", "Promise.reject(new TypeError('trial'))"):
        desk.run(f"{script}; return null")
        wait("it is said", lambda: not is_green(desk) and "fault" in desk.text("#link"))
        room.entry()
        wait("it asks on", lambda: version_in(desk.text("#link")) == room.version())
        room.move(seconds=30)
        follows(desk, room)


def clock_wrong(room):
    """The machine's clock is an hour fast, and an hour slow: it is said, and the server's time is used."""
    for wrong in (3600, -3600):
        room.proxy.clock.wrong = wrong
        desk = room.desk()
        wait("it is said", lambda: desk.shown("#clocknote"))
        minute = room.now() + wrong // 60
        told = wait("the clock is the server's", lambda: desk.text("#utc") in [f"{at % 1440 // 60:02d}:{at % 60:02d}" for at in (minute - 1, minute, minute + 1)] and desk.text("#clocknote"), 5)
    room.proxy.clock.wrong = 20
    desk = room.desk()
    time.sleep(3)
    assert not desk.shown("#clocknote"), "twenty seconds are called wrong"
    return told


def training(room):
    """With a frozen minute the page says TRAINING and sends nothing, but to a server that says that it is for training."""
    visit, stand = room.placeable()
    for is_training in (False, True):
        proxy = room.address(room.server.port, training=is_training)
        desk = room.desk("?now=2026-07-02T10:20Z", proxy=proxy, live=False)
        assert desk.shown("#training"), "it does not say TRAINING"
        wait("the waiting part is there", lambda: desk.count(waiting_item(visit["visit"])))
        desk.drag(waiting_item(visit["visit"]), stand)
        wait("the draft has it", lambda: desk.count("#draft li"))
        desk.control("Enter")
        time.sleep(2)
        sent = [it for it in proxy.asked if it[1] == "POST"]
        assert bool(sent) == is_training, f"a server that {'is' if is_training else 'is not'} for training was sent {sent}"
    assert room.stand_of(visit["visit"]) == stand


def outside_plan(room):
    """After the plan's last day the page says so, and shows no other day as today."""
    room.move(minutes=14 * 1440)
    desk = room.desk(bars=False)
    return wait("it says so", lambda: desk.shown("#outside") and desk.text("#outside"))


def changes(room):
    """Changes has a line for each visit that an entry changed, with its version, and no other: also while a night stop is picked that needs the next day, which has a visit of its own, and after it."""
    room.move(minutes=8 * 60)
    add(room, "NEXTDAY", DAY * 1440 + 600, DAY * 1440 + 690)
    desk = room.desk()
    night = next(it for it in room.visits() if it["state"] == "expected" and it["parts"][0]["stand"] and it["parts"][0]["to"] > 2 * 1440 + 120)
    desk.row_of(night["parts"][0]["stand"])
    desk.run("const chart = document.getElementById('chart'); if (chart.dataset.pm) chart.scrollLeft += (args[0] - 60 - chart.dataset.start) * chart.dataset.pm", night["parts"][0]["from"])
    desk.click(bar_of(night["visit"]))
    wait("it is picked", lambda: desk.count(".picked"))
    time.sleep(2)
    assert not desk.count("#changelist li"), f"nothing changed, and the list has {desk.texts('#changelist li')[:3]}"
    desk.keys("Escape")
    wanted = told_entries(room)
    wait("the last version is shown", lambda: version_in(desk.text("#link")) == room.version())
    lines = desk.texts("#changelist li")
    is_about = lambda text, version, flight: text.startswith(f"{version}{flight} ")
    extra = [it for it in lines if not any(is_about(it, version, flight) for version, flight in wanted)]
    assert not extra, f"these lines are about nothing that happened: {extra}"
    for version, flight in wanted:
        assert any(is_about(it, version, flight) for it in lines), f"version {version} about {flight} is not among {lines}"
    return f"{len(lines)} lines"


def told_entries(room):
    """Entries of each kind, each seen by the page before the next: their versions, and the flights of the visits that they change."""
    now, wanted = room.now(), []
    live = [it for it in room.visits() if it["parts"][0]["stand"]]
    late = next(it for it in live if it["state"] == "onblock" and it["dep"] and it["dep"]["day"] >= 1)
    cancelled = next(it for it in live if it["state"] == "expected" and it["on"] > now + 200)
    placed, stand = room.placeable()
    for target, body, visit in (
            ("/mvt", departure_of(late, now + 7), late), ("/cancels", {"visit": cancelled["visit"]}, cancelled), ("/mvt", b"MVT\nXY1/02.DABCD.XXX\nEA0900 LRG\n", None),
            ("/commits", {"desk": "OTHER", "draft": 1, "base": room.version(), "edits": [{"put": {"visit": placed["visit"], "part": 1, "stand": stand}}]}, placed)):
        code, reply = room.asked.post(target, body)
        assert code == 200, f"{target} is answered {reply}"
        wanted += [(reply["version"], flight_of(visit))] if visit else []
        wanted += [(reply["version"], flight_of(room.visit(it["visit"]))) for it in reply.get("bumped", [])]
        time.sleep(2.5)
    return wanted


TRIALS = (malformed_later, malformed_at_load, statuses, slow_server, fault_in_page, clock_wrong, training, outside_plan, changes)
