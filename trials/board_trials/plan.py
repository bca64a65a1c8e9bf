"""The plan of the trials: the large example airport on its summer day, each visit on a stand that can have one, with the morning's reports."""

import json
import os
import random
import shutil

from shared import served, stand_plan

DAY, NOW = 2, 2060
# The seconds since 1970 of the plan's first minute, and of the present one of a trial.
FIRST = 1782864000
PRESENT = FIRST + 60 * NOW
WORKERS = 12


def message_of(visit, touchdown):
    """A message that a visit's flight is expected to land at a minute."""
    at = f"{touchdown // 1440 + 1:02d}{touchdown % 1440 // 60:02d}{touchdown % 60:02d}"
    return f"MVT\n{visit['arr']['flight']}/{visit['arr']['day']:02d}.DABCD.XXX\nEA{at} LRG\n".encode()


def departure_of(visit, minute):
    """A message that a visit is expected off block at a minute."""
    at = f"{minute // 1440 + 1:02d}{minute % 1440 // 60:02d}{minute % 60:02d}"
    return f"MVT\n{visit['dep']['flight']}/{visit['dep']['day']:02d}.DABCD.LRG\nED{at}\n".encode()


def flight_of(visit):
    return (visit["arr"] or visit["dep"] or {"flight": visit["name"]})["flight"]


class Asked:
    """Requests to a server, past the proxy of the pages, over a connection that is opened again after the server was away."""

    def __init__(self, server):
        self.server, self.link = server, None

    def ask(self, method, target, body=None, lines=()):
        data = body if isinstance(body, bytes) else b"" if body is None else json.dumps(body).encode()
        request = served.request(method, target, data, lines=lines)
        try:
            self.link = self.link or self.server.link()
            reply = self.link.ask(request)
        except served.Cut:
            self.link.close()
            self.link = self.server.link()
            reply = self.link.ask(request)
        return reply.code, json.loads(reply.body)

    def read(self, target):
        return self.ask("GET", target)[1]

    def post(self, target, body, lines=()):
        return self.ask("POST", target, body, lines)

    def version(self):
        return self.read("/version")["version"]


def make(program, folder):
    """The path of the journal of the summer day, and the airport."""
    server = served.Server(program, folder, 2, example="large")
    server.make_journal()
    server.run("import", *server.files, os.path.join(served.EXAMPLES, "large", "season.csv"), server.journal)
    server.start()
    try:
        airport = stand_plan.Airport(*server.files)
        fill(Asked(server), airport)
        return server.copy(), airport
    finally:
        server.kill()


def started(program, folder, journal):
    """A server with a copy of a journal."""
    os.makedirs(folder)
    server = served.Server(program, folder, WORKERS, example="large")
    shutil.copy(journal, server.journal)
    server.start()
    return server


def fill(asked, airport):
    visits = asked.read(f"/day/{DAY}")["visits"]
    edits, held = [], [[] for _ in airport.stands]
    by_letter = sorted(range(len(held)), key=lambda stand: (airport.stands[stand]["letter"], stand))
    for visit in sorted(visits, key=lambda it: (it["class"], it["on"])):
        stand = free(airport, visit, held, by_letter)
        if stand is not None:
            edits.append({"put": {"visit": visit["visit"], "part": 1, "stand": airport.stands[stand]["name"]}})
    base = asked.version()
    for begin in range(0, len(edits), 64):
        code, body = asked.post("/commits", {"desk": "FILL", "draft": begin + 1, "base": base, "edits": edits[begin:begin + 64]})
        assert code == 200, f"the summer day is not placed: {body}"
    report(asked, visits, random.Random(5))


def free(airport, visit, held, by_letter):
    """The first stand on which a visit stands free, which it then holds."""
    kind = airport.type_of[visit["type"]]
    for stand in by_letter:
        if airport.unfit(stand, kind) is None:
            slot = kind, stand, visit["on"], visit["off"] + airport.stands[stand]["buffer"]
            if all(airport.meeting(slot, other) is None for near in airport.near[stand] for other in held[near]):
                held[stand].append(slot)
                return stand
    return None


def report(asked, visits, draws):
    """Reports what happened until now; and later flights are expected late."""
    for visit in sorted(visits, key=lambda it: it["on"]):
        stand = asked.read(f"/visits/{visit['visit']}")["parts"][0]["stand"]
        on, off = visit["on"] + draws.choice([-6, -3, 0, 0, 2, 4, 9]), visit["off"] + draws.choice([-5, 0, 0, 3, 8, 25])
        if on <= NOW and stand is not None:
            asked.post("/reports", {"visit": visit["visit"], "on": {"part": 1, "stand": stand, "minute": on}})
            if off <= NOW:
                asked.post("/reports", {"visit": visit["visit"], "off": {"minute": off}})
        elif visit["on"] > NOW and visit["arr"] and visit["arr"]["day"] >= 1 and draws.random() < 0.2:
            asked.post("/mvt", message_of(visit, visit["on"] - 9 + draws.choice([-15, 10, 20, 35, 50, 80])))
