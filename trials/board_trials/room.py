"""What one trial has: a server with the summer day, an address with faults before it, and boards."""

import contextlib
import json
import os
import re
import shutil
import time

from board_trials import plan
from board_trials.chromium import Broken, Page
from board_trials.desk import Desk, wait
from board_trials.faulty import Faulty


class Kit:
    """What all trials share: the program, the browser, a folder, a copy of the board that is tried, and the board before it."""

    def __init__(self, program, folder, browser, source, before):
        self.program, self.folder, self.browser, self.source, self.before = program, folder, browser, source, before
        self.board = shutil.copytree(source, os.path.join(folder, "board"))
        made = os.path.join(folder, "made")
        os.mkdir(made)
        self.journal, self.airport = plan.make(program, made)
        self.count = 0

    def folder_of(self, name):
        self.count += 1
        return os.path.join(self.folder, f"{self.count}-{name}")


class Room:
    """Of one trial: what it starts is ended with it."""

    def __init__(self, kit, name):
        self.kit, self.airport, self.browser, self.name = kit, kit.airport, kit.browser, name
        self.folder = kit.folder_of(name)
        self.server = plan.started(kit.program, self.folder, kit.journal)
        self.asked = plan.Asked(self.server)
        self.ahead = plan.PRESENT - time.time()
        self.ends, self.desks = [], []
        self.proxy = self.address(self.server.port)

    def address(self, port, board=None, training=False):
        """An address of a board, before the server at a port."""
        made = Faulty(board or self.kit.board, port, self.ahead, training)
        self.ends.append(made.end)
        return made

    def desk(self, query="", proxy=None, context=None, size=(1920, 1080), bars=True, live=True, **settings):
        """A board, opened; its clock is that of the trial. It keeps its things apart, unless it is given a context; "" is the browser's own profile."""
        context = self.browser.context() if context is None else context
        self.desks.append(Desk(self.browser.page(context, size), (proxy or self.proxy).origin, self.ahead if live else None, **settings))
        self.desks[-1].context = context
        return self.desks[-1].open(query, bars) if query is not None else self.desks[-1]

    def twin(self, desk):
        """A second tab, made by the first one, so that it begins with a copy of all that the first keeps."""
        before = {it["targetId"] for it in self.browser.targets(desk.context)}
        desk.page.call("Runtime.evaluate", expression="void window.open('/board.css')", userGesture=True)
        found = wait("there is a second tab", lambda: [it for it in self.browser.targets(desk.context) if it["targetId"] not in before])
        twin = Desk(Page(self.browser, found[0]["targetId"], (1920, 1080)), desk.origin, self.ahead)
        twin.context = desk.context
        self.desks.append(twin)
        return twin.open()

    def move(self, minutes=0.0, seconds=0.0):
        """Has the clocks of the boards and of the replies move on."""
        by = 60 * minutes + seconds
        self.ahead += by
        self.proxy.clock.ahead += by
        for desk in self.desks:
            desk.move(by)

    def now(self):
        """The present minute of the plan."""
        return int(time.time() + self.ahead - plan.FIRST) // 60

    def show_desks(self):
        """Pictures of what the boards show where a trial failed."""
        for number, desk in enumerate(self.desks, 1):
            with contextlib.suppress(Broken, OSError):
                desk.picture(f"failed-{self.name}-{number}")

    def faults(self):
        """What scripts of the boards threw, in words; nothing if they threw nothing."""
        thrown = [it for desk in self.desks for it in desk.page.faults()]
        return f" [in the page: {'; '.join(thrown[:3])}]" if thrown else ""

    def end(self):
        for desk in self.desks:
            with contextlib.suppress(Broken, OSError):
                desk.close()
        for end in self.ends:
            end()
        self.server.kill()

    # ---- the plan, apart from the page

    def visits(self, *days):
        return list({it["visit"]: it for day in days or (plan.DAY,) for it in self.asked.read(f"/day/{day}")["visits"]}.values())

    def visit(self, number):
        return self.asked.read(f"/visits/{number}")

    def stand_of(self, visit, part=1):
        return self.visit(visit)["parts"][part - 1]["stand"]

    def version(self):
        return self.asked.version()

    def waiting(self):
        """The visits that wait and can still be placed, by rank."""
        now = self.now()
        found = [it for it in self.visits() if it["state"] == "expected" and it["parts"][0]["stand"] is None and it["parts"][0]["from"] > now]
        return sorted(found, key=lambda it: (it["class"], it["on"], it["visit"]))

    def verdict(self, visit, stand, among=None):
        """What the server says to a draft with this one edit over its plan, or over these visits: worked out by the model apart from it."""
        type_no, place = self.airport.type_of[visit["type"]], self.airport.stand_of[stand]
        if self.airport.unfit(place, type_no) is not None:
            return "unfit"
        part = visit["parts"][0]
        slot = type_no, place, part["from"], part["to"] + self.airport.stands[place]["buffer"]
        for other in self.visits() if among is None else among:
            for it in other["parts"]:
                if other["visit"] != visit["visit"] and it["stand"] is not None:
                    at = self.airport.stand_of[it["stand"]]
                    end = it["to"] + self.airport.stands[at]["buffer"]
                    met = self.airport.meeting(slot, (self.airport.type_of[other["type"]], at, it["from"], end))
                    if met is not None:
                        return met[1], plan.flight_of(other), met[0]
        return None

    def stand_for(self, visit, verdict, stands=24):
        """A stand of the first rows of which the verdict is as wanted."""
        among = self.visits()
        for stand in self.airport.stands[:stands]:
            if verdict(self.verdict(visit, stand["name"], among)):
                return stand["name"]
        return None

    def placeable(self, beside=()):
        """A waiting visit, none of these, and a stand of the first rows on which it fits."""
        for visit in self.waiting():
            stand = None if visit["visit"] in beside else self.stand_for(visit, lambda it: it is None)
            if stand is not None:
                return visit, stand
        raise AssertionError("no waiting visit fits a stand of the first rows")

    def entry(self, number=1):
        """Takes in a message of no visit: an entry that the boards have to look at."""
        self.asked.post("/mvt", b"MVT\nXY%d/02.DABCD.XXX\nEA0900 LRG\n" % number)

    def kept(self, desk, store, key):
        """A value that the page keeps in the browser."""
        text = desk.run("return globalThis[args[0]].getItem(args[1])", store, f"apron / {key}")
        return None if text is None else json.loads(text)


def clock_of(minute):
    return f"{minute % 1440 // 60:02d}:{minute % 60:02d}"


def version_in(text):
    found = re.search(r"version (\d+)", text)
    return int(found[1]) if found else None
