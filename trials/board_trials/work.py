"""Trials of a shift's work: times, finding, several parts at once, the card, what is asked before it goes out, Propose, keys and words."""

import re
import time

from board_trials.chromium import CONTROL, SHIFT
from board_trials.desk import bar_of, wait, waiting_item
from board_trials.plan import DAY, departure_of, flight_of
from board_trials.room import clock_of
from board_trials.soon import add, free_stand, put, seen_bar


def answered(desk, room, version):
    """Has what was asked before something goes out answered with yes, if it was asked; it is then an entry."""
    wait("it asks, or it is an entry", lambda: desk.shown("#yes") or room.version() > version)
    if desk.shown("#yes"):
        desk.click("#yes")
    wait("it is an entry", lambda: room.version() > version)


def chosen_bar(desk, room, number):
    """Brings a visit's bar into sight, and the cursor to it; its selector."""
    bar = seen_bar(desk, room, number)
    desk.click(bar)
    desk.keys("Escape")
    wait("the cursor is on it", lambda: desk.count(f"{bar}.cursor"), 5)
    return bar


def with_flights(room, begins, name="TIMED"):
    """A visit with both flights on a stand that is free for long around it."""
    number = add(room, name, begins, begins + 80, arr={"flight": "QQ21", "day": DAY}, dep={"flight": "QQ22", "day": DAY})
    put(room, number, free_stand(room, begins - 60, begins + 260))
    return number


def times_by_drag(room):
    """A drag along the axis makes the movement message that says it, shows it before it is sent, and moves the visit."""
    desk = room.desk()
    number = with_flights(room, room.now() + 60)
    bar = seen_bar(desk, room, number)
    part, per_minute = room.visit(number)["parts"][0], float(desk.attribute("#chart", "data-pm"))
    x, y = desk.middle(bar)
    by = round(40 * per_minute)
    desk.page.drag_through([(x, y), (x + by / 2, y + 1), (x + by, y + 1), (x + by, y)])
    words = wait("the message is shown", lambda: desk.shown("#dialog[open]") and desk.text("#dialog"))
    assert re.search(r"EA\d{4,6}", words), words
    assert room.visit(number)["parts"][0]["from"] == part["from"], "it was sent without a word"
    version = room.version()
    desk.click("#dialog button[type=submit]")
    answered(desk, room, version)
    moved = room.visit(number)["parts"][0]["from"] - part["from"]
    assert 35 <= moved <= 45, f"it was moved by {moved} minutes"


def times_by_form(room):
    """A form makes the message of new times, and says which stands would be lost; a visit without the flight says why it can't."""
    desk = room.desk()
    number = with_flights(room, room.now() + 60)
    part = room.visit(number)["parts"][0]
    bare = add(room, "BARE", part["to"] + 20, part["to"] + 90, rank=9)
    put(room, bare, part["stand"])
    chosen_bar(desk, room, number)
    desk.keys("m")
    desk.fill("#f-off", clock_of(part["to"] + 30))
    desk.run("document.getElementById('f-off').dispatchEvent(new Event('change', { bubbles: true }))")
    words = wait("the message and the loss are shown", lambda: "ED" in desk.text("#dialog") and "BARE" in desk.text("#dialog") and desk.text("#dialog"))
    version = room.version()
    desk.click("#dialog button[type=submit]")
    answered(desk, room, version)
    assert room.visit(number)["parts"][0]["to"] == part["to"] + 30, room.visit(number)["parts"]
    assert room.visit(bare)["parts"][0]["bump"], "the stand was not lost"
    desk.keys("Escape")
    other = add(room, "FLIGHTLESS", room.now() + 60, room.now() + 120)
    put(room, other, free_stand(room, room.now() + 30, room.now() + 200))
    chosen_bar(desk, room, other)
    desk.keys("m")
    desk.fill("#f-on", clock_of(room.now() + 80))
    desk.run("document.getElementById('f-on').dispatchEvent(new Event('change', { bubbles: true }))")
    told = wait("it says why it can't", lambda: re.search(r"[^.]*\bno arrival flight[^.]*", desk.text("#dialog")))
    return f"{words.strip()[:60]} .. {told[0].strip()[:80]}"


def finds(room):
    """/ finds a flight, a stand and a type alike; Enter goes there, and nothing found says so."""
    desk = room.desk()
    visit = next(it for it in room.visits() if it["state"] == "expected" and it["parts"][0]["stand"] and it["parts"][0]["from"] > room.now() + 400 and it["arr"])
    desk.keys("/")
    for word in (visit["parts"][0]["stand"], visit["type"], visit["arr"]["flight"]):
        desk.fill("#find", word)
        wait(f"{word} is found", lambda: desk.count("#found li"))
    desk.keys("Enter")
    wait("the bar is in sight", lambda: desk.shown(bar_of(visit["visit"])))
    desk.keys("Escape", "/")
    desk.fill("#find", "QX9999")
    wait("it says that nothing is found", lambda: "Nothing found" in desk.text("#found") and desk.shown("#found"))


def waiting_list(room):
    """Waiting can be sorted by time or by priority, searched, and says how many minutes are left."""
    desk = room.desk()
    listed = lambda: [int(it.split(".")[0]) for it in desk.run("return [...document.querySelectorAll('#waitlist .wait')].map((it) => it.dataset.key)")]
    for word, key in (("time", lambda it: it["parts"][0]["from"]), ("class", lambda it: it["class"])):
        desk.run("const it = document.getElementById('waitsort'); it.value = args[0]; it.dispatchEvent(new Event('change', { bubbles: true }))", word)
        wait(f"it is sorted by {word}", lambda key=key: (found := [key(room.visit(it)) for it in listed()]) and found == sorted(found), 6)
    visit = min(room.waiting(), key=lambda it: it["parts"][0]["from"])
    left = wait("it says what is left", lambda: desk.text(f'{waiting_item(visit["visit"])} .left'))
    minutes = visit["parts"][0]["from"] - room.now()
    assert abs(int(re.match(r"\d+", left)[0]) - minutes) <= 1, f"{left} for {minutes} minutes"
    desk.fill("#waitfind", flight_of(visit))
    wait("only it is listed", lambda: listed() == [visit["visit"]], 5)


def pair_of(room, desk):
    """Two parts of the same minutes, each on a stand of its own; their bars and their stands."""
    now, numbers = room.now(), []
    for name in ("PAIR-A", "PAIR-B"):
        number = add(room, name, now + 60, now + 130)
        put(room, number, free_stand(room, now + 40, now + 200))
        numbers.append(number)
    return [seen_bar(desk, room, it) for it in numbers], [room.stand_of(it) for it in numbers]


def pick_both(desk, bars):
    desk.click(bars[0])
    desk.click(bars[1], modifiers=CONTROL)
    wait("both are picked", lambda: desk.count(".bar.picked") == 2, 5)


def several(room):
    """Several parts are picked with Ctrl, deallocated at once, swapped by the menu, and moved to a row of stands by one drag."""
    desk = room.desk()
    bars, stands = pair_of(room, desk)
    pick_both(desk, bars)
    desk.keys("l")
    wait("both are lifted", lambda: desk.count("#draft li") == 2, 5)
    desk.keys("u", "u", "Escape")
    wait("it is undone", lambda: not desk.count("#draft li"), 5)
    pick_both(desk, bars)
    desk.page.click_at(*desk.middle(bars[0]), button="right")
    wait("there is a menu of both", lambda: desk.shown('#menu [data-act="swap"]'), 5)
    desk.click('#menu [data-act="swap"]')
    wait("they change places", lambda: sorted(re.findall(r"put on (\w+)", " ".join(desk.texts("#draft li")))) == sorted(stands), 5)
    wait("it fits", lambda: "Fits" in desk.text("#draft"), 5)
    desk.publish()
    wait("the server has them in each other's places", lambda: [room.stand_of(int(it.split("p")[1].split(".")[0])) for it in bars] == stands[::-1])
    pick_both(desk, bars)
    goal = free_stand(room, room.now() + 40, room.now() + 200)
    desk.drag(bars[0], goal)
    words = wait("both are put", lambda: desk.count("#draft li") == 2 and " ".join(desk.texts("#draft li")), 5)
    assert goal in words and len(set(re.findall(r"put on (\w+)", words))) == 2, words
    return words


def frame_picks(room):
    """A frame drawn with Shift picks the parts in it."""
    desk = room.desk()
    now = room.now()
    numbers = [add(room, name, now + 60, now + 130) for name in ("IN-A", "IN-B")]
    for number in numbers:
        put(room, number, free_stand(room, now + 40, now + 200))
    bars = [seen_bar(desk, room, number) for number in numbers]
    places = [desk.place_of(bar) for bar in bars]
    top, bottom = min(it["top"] for it in places) + 4, max(it["bottom"] for it in places) - 4
    left, right = min(it["left"] for it in places) - 12, max(it["right"] for it in places) + 12
    desk.page.drag_through([(left, top), ((left + right) / 2, (top + bottom) / 2), (right, bottom), (right, bottom)], modifiers=SHIFT)
    wait("both are picked", lambda: all(desk.count(f"{bar_of(it)}.picked") for it in numbers), 5)


def card(room):
    """Hover and a key give a card with all that is known of the visit: flights, times, priority, and the kind and the client of the entry that edited it last."""
    desk = room.desk()
    number = with_flights(room, room.now() + 60)
    bar = seen_bar(desk, room, number)
    desk.page.mouse("mouseMoved", *desk.middle(bar))
    wait("the card is there", lambda: desk.shown("#card") and "QQ21" in desk.text("#card"))
    words = wait("it names the desk of the last entry", lambda: "OTHER" in desk.text("#card") and desk.text("#card"))
    for word in ("QQ22", "TIMED", "A320", "commit"):
        assert word in words, f"the card does not say {word}: {words}"
    desk.page.mouse("mouseMoved", 5, 5)
    chosen_bar(desk, room, number)
    wait("the card is gone", lambda: not desk.shown("#card"))
    desk.keys("i")
    wait("the card is there by a key", lambda: desk.shown("#card"))


def report_asks(room):
    """A report on block by which others would lose their stands says who, and asks, with the focus on No; a cancel asks too."""
    desk = room.desk()
    now = room.now()
    stand = free_stand(room, now - 30, now + 200)
    loses, comes = add(room, "LOSES", now + 15, now + 80), add(room, "COMES", now + 5, now + 90)
    put(room, loses, stand)
    put(room, comes, free_stand(room, now - 30, now + 200))
    chosen_bar(desk, room, comes)
    desk.keys("o")
    desk.fill("#f-stand", stand)
    version = room.version()
    desk.click("#dialog button[type=submit]")
    words = wait("it asks", lambda: desk.shown("#no") and desk.text("#dialog"))
    assert "LOSES" in words, words
    assert desk.run("return document.activeElement.id") == "no", "the focus is not on No"
    desk.keys("Enter")
    time.sleep(1)
    assert room.version() == version, "No sent it"
    desk.leave()
    chosen_bar(desk, room, comes)
    desk.keys("Delete")
    wait("a cancel asks", lambda: desk.shown("#no"))
    assert desk.run("return document.activeElement.id") == "no", "the focus is not on No"
    desk.click("#yes")
    wait("it is cancelled", lambda: room.visit(comes)["state"] == "cancelled")
    return words[:160]


def report_away(room):
    """A report that is sent while the server is away is asked for until it is there, and is one entry then."""
    desk = room.desk()
    now = room.now()
    number = add(room, "AWAY", now + 1, now + 80)
    put(room, number, free_stand(room, now - 30, now + 200))
    chosen_bar(desk, room, number)
    before = room.version()
    desk.keys("o")
    desk.one("#f-stand")
    room.server.kill()
    desk.click("#dialog button[type=submit]")
    wait("it says that no reply came, or asks", lambda: desk.shown("#yes") or "asked" in desk.text("#dialog"))
    if desk.shown("#yes"):
        desk.click("#yes")
    wait("it says that no reply came", lambda: "asked" in desk.text("#dialog"))
    room.server.start()
    wait("the visit is on block", lambda: room.visit(number)["state"] == "onblock")
    wait("the dialogue ends", lambda: not desk.count("#dialog[open]"))
    assert room.version() == before + 1, "it is not one entry"


def report_named(room):
    """Behind a proxy that names clients by user, a report and a message whose reply is lost: what the entries show not to be taken is sent again and is one entry; what may be taken is not, and a person is told to look."""
    room.proxy.desk = "NORTH"
    desk = room.desk()
    now, told = room.now(), ""
    for target, key, field in (("/reports", "o", "#f-stand"), ("/mvt", "t", "#f-text")):
        for fault, is_taken in (("504", False), ("late", True)):
            number = with_flights(room, now + 1, f"NAMED-{key}-{fault}".upper())
            chosen_bar(desk, room, number)
            before, asked = room.version(), len(room.proxy.asked)
            room.proxy.fail(f"^POST {target}", fault, 1)
            desk.keys(key)
            desk.one(field)
            if key == "t":
                desk.fill(field, departure_of(room.visit(number), now + 90).decode())
            desk.click("#dialog button[type=submit]")
            wait("it asks, or goes out", lambda target=target, asked=asked: desk.shown("#yes") or any(it[1:3] == ("POST", target) for it in room.proxy.asked[asked:]))
            if desk.shown("#yes"):
                desk.click("#yes")
            if is_taken:
                told = wait("it is not known whether it was taken", lambda: "not known" in desk.text("#fault") and desk.text("#fault"))
                time.sleep(3)
                desk.leave()
            else:
                wait("the dialogue ends", lambda: not desk.count("#dialog[open]"))
            assert room.version() == before + 1, f"{target} with {fault} is {room.version() - before} entries"
            assert room.asked.read(f"/entries/{room.version()}")["desk"] == "NORTH"
    return told


def propose(room):
    """Propose makes a first-fit draft of what waits in sight, which the server takes, and says why others are left."""
    desk = room.desk()
    add(room, "TOOWIDE", room.now() + 60, room.now() + 200, kind="A388")
    for number in range(6):
        add(room, f"WIDE-{number}", room.now() + 60, room.now() + 200, kind="A388")
    wait("they wait", lambda: "WIDE-5" in desk.text("#waitlist") + desk.text("#passedlist"))
    before = len(room.waiting())
    desk.keys("v")
    count = wait("there is a draft", lambda: desk.count("#draft li"))
    wait("it fits", lambda: "Fits" in desk.text("#draft"))
    told = wait("it says why others are left", lambda: "WIDE" in desk.text("#dialog") + desk.text("#say") + desk.text("#draft .left"))
    desk.keys("Escape")
    desk.publish()
    wait("the server takes it", lambda: not desk.count("#draft li"))
    assert len(room.waiting()) < before
    return f"{count} edits; {told}"


def caps(room):
    """With Caps Lock each shortcut works as without it."""
    desk = room.desk()
    for key, selector in (("T", "#f-text"), ("N", "#dialog[open]")):
        desk.keys(key)
        wait(f"{key} opens its dialogue", lambda selector=selector: desk.shown(selector), 5)
        desk.keys("Escape")
        wait("it is closed", lambda: not desk.count("#dialog[open]"), 5)
    number = room.waiting()[0]["visit"]
    desk.click(waiting_item(number))
    wait("it is picked", lambda: desk.count(".picked"), 5)
    desk.keys("K")
    time.sleep(0.5)
    assert desk.count(".row") < len(room.airport.stands) and not desk.run("return [...document.querySelectorAll('.row')].some((it) => it.querySelector('.spot.off'))"), "K shows stands that it does not fit"


def esc_asks(room):
    """Esc asks before it drops typed text, and drops an empty dialogue at once."""
    desk = room.desk()
    desk.keys("t")
    desk.one("#f-text")
    desk.keys("Escape")
    wait("an empty one is closed", lambda: not desk.count("#dialog[open]"), 5)
    desk.keys("t")
    desk.fill("#f-text", "MVT HALF")
    desk.keys("Escape")
    wait("it asks, or drops the text", lambda: desk.shown("#drop-typed") or not desk.count("#dialog[open]"), 5)
    assert desk.count("#dialog[open]"), "the typed text is dropped without a word"
    desk.click("#keep-typing")
    wait("the text is there", lambda: desk.run("return document.getElementById('f-text')?.value") == "MVT HALF", 5)


def words(room):
    """The words are a controller's: publish and not send, and none of the program's."""
    desk = room.desk()
    visit, stand = room.placeable()
    desk.drag(waiting_item(visit["visit"]), stand)
    wait("the draft can be published", lambda: desk.text("#send").strip() == "Publish", 5)
    desk.keys("?")
    told = desk.text()
    for word in ("same bytes", "Send", "of day"):
        assert word not in told, f"the page says {word}"


def one_stop(room):
    """Each list is one tab stop, and the arrows go through it."""
    desk = room.desk()
    stops = desk.run("""
      const stops = (id) => [...document.querySelectorAll(`#${id} *, #${id}`)].filter((it) => it.tabIndex >= 0 && it.checkVisibility()).length;
      return ["waitlist", "passedlist", "changelist", "soonlist"].map((id) => [id, stops(id)]);""")
    assert all(count <= 1 for _, count in stops), stops


TRIALS = (times_by_drag, times_by_form, finds, waiting_list, several, frame_picks, card, report_asks, report_away, report_named, propose, caps, esc_asks, words, one_stop)
