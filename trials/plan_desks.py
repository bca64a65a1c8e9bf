"""What trials/plan-holds tries the planner with: a server with the visits of a full day at the airport of examples/large, and clients that edit
its plan meanwhile."""

import collections
import os
import random
import subprocess
import sys
import threading
import time

from shared import SCRIPTS, plan_days, served, stand_plan
from stand_planning import desk

from plan_server import PlanServer

PLAN = os.path.join(SCRIPTS, "plan")
PREFERENCES = os.path.join(served.EXAMPLES, "large", "preferences.csv")
VISITS, SEED = 500, 3
# Seconds between two edits of a busy client, and how long a program may take on a machine that does other work too.
BETWEEN, PATIENCE = 0.4, 600

Ran = collections.namedtuple("Ran", "code output errors")


def fill(server):
    """Has a server that is to be started begin with the visits of a full day."""
    server.make_journal()
    path = os.path.join(server.room, "season.csv")
    with open(path, "w") as file:
        file.write(plan_days.season(stand_plan.Airport(*server.files), VISITS, SEED))
    server.run("import", *server.files, path, server.journal)


def ended(process):
    """How a planner ends, and what it said. If that takes too long, it is killed."""
    try:
        output, errors = process.communicate(timeout=PATIENCE)
        return Ran(process.returncode, output, errors)
    finally:
        process.kill()


class Day:
    """A running server with a full day, and the words by which the planner reaches it."""

    def __init__(self, server, words=()):
        self.server, self.room, self.rules = server, server.room, stand_plan.Airport(*server.files)
        self.address = f"127.0.0.1:{server.port}"
        self.words = [*(words or [self.address]), "--preferences", PREFERENCES]
        self.desk = self.another_desk("TRIAL")

    def another_desk(self, name):
        return desk.Desk(PlanServer(self.address), name)

    def start(self, *words):
        return subprocess.Popen([sys.executable, PLAN, *self.words, *words], stdin=subprocess.DEVNULL, stdout=subprocess.PIPE,
                                stderr=subprocess.PIPE, text=True)

    def plan(self, *words, code=0):
        """Runs the planner to its end, which has to be with this status."""
        ran = ended(self.start(*words))
        assert ran.code == code, f"plan {' '.join(words)} ended with {ran.code}: {ran.errors[-300:]}"
        return ran

    def parts(self):
        """Each part by its visit and number: from, to, the stand or None, and whether it is on block."""
        found = {}
        for day in range(1, self.rules.days + 1):
            for visit in self.desk.get(f"/day/{day}")["visits"]:
                for number, it in enumerate(visit["parts"], 1):
                    found[visit["visit"], number] = it["from"], it["to"], it["stand"], it["actual"]
        return found

    def version(self):
        return self.desk.get("/version")["version"]

    def drafts_of(self, name, since):
        """How many drafts of planners that are named so the plan has taken after this version."""
        entries = (self.desk.get(f"/entries/{number}") for number in range(since + 1, self.version() + 1))
        return sum((it["desk"] or "").startswith(name + "-") for it in entries)

    def send(self, edits):
        status, value = self.desk.commit(self.version(), edits)
        assert status == 200, f"a draft is refused: {value}"

    def has_room_for_none(self):
        """The program itself finds no stand for a part that waits."""
        lines = self.server.run("propose", *self.server.files, "TRIAL", "1", self.server.copy()).decode().splitlines()
        puts = [line for line in lines if line.startswith("put ")]
        assert not puts, f"{len(puts)} parts that wait have a free stand, as {puts[0]}"


class Busy(threading.Thread):
    """A client that edits until it is told to end: it puts unallocated parts on stands, or it moves and deallocates planned ones; of those only
    that begin no earlier than a minute."""

    def __init__(self, day, is_taking, begins):
        super().__init__()
        self.day, self.is_taking, self.begins, self.taken, self.is_over = day, is_taking, begins, 0, False
        # The version of its last edit of each part, and the stand that this gave, or None.
        self.dice, self.desk, self.touched = random.Random(is_taking), day.another_desk("BUSY"), {}

    def run(self):
        while not self.is_over:
            told = self.desk.get("/unplaced" if self.is_taking else "/plan/2")
            rows = [it for it in told["parts"] if not it.get("actual") and it["from"] >= self.begins]
            if rows:
                self.edit(told["version"], self.dice.choice(rows))
            time.sleep(BETWEEN)

    def edit(self, version, it):
        place = {"visit": it["visit"], "part": it["part"]}
        is_lift = not self.is_taking and self.dice.random() < 0.3
        stand = None if is_lift else self.dice.choice(self.day.rules.stands)["name"]
        status, value = self.desk.commit(version, [{"lift": place} if is_lift else {"put": {**place, "stand": stand}}])
        if status == 200:
            self.taken += 1
            self.touched[it["visit"], it["part"]] = value["version"], stand


class TwoDesks:
    """Two busy clients, as long as a `with` lasts: one that takes stands, and one that deallocates parts and moves them."""

    def __init__(self, day, begins=0):
        self.desks = [Busy(day, is_taking, begins) for is_taking in (True, False)]

    def __enter__(self):
        for it in self.desks:
            it.start()
        return self

    def __exit__(self, *_):
        for it in self.desks:
            it.is_over = True
            it.join()

    def edits(self):
        return sum(it.taken for it in self.desks)

    def touched(self):
        """The parts that they edited, each with the stand that it had then, or None."""
        edits = sorted((version, key, stand) for it in self.desks for key, (version, stand) in it.touched.items())
        return {key: stand for _, key, stand in edits}
