"""The demonstration as a whole: its folder, its server, its address, and the threads that play."""

import contextlib
import errno
import os
import tempfile
import threading
import time

from address import Address
from clock import MINUTES_OF_DAY, Clock
from messages import Writer
from opening import prepare
from past import tell_past
from play import Play
from program import Link, Server, Unable
from timetable import LARGE, visits_of, write_airport, write_season

STATION = "LRG"
# The field by which the board knows that nothing here is real.
TRAINING = {"X-Training": "yes"}
YESTERDAY, TODAY, TOMORROW = 1, 2, 3
# Today is played at once from the evening before on, in steps of so many minutes.
EVENING, STEP = 300, 15
# Of so many visits of today one waits for a person if it is due only so many minutes later, and so many of those that lost their stands.
LEFT, LEFT_AFTER, LEFT_LOST = 50, 45, 3
# Seconds between two requests of what is filled while a board is open, and between two looks at what is due.
PAUSE, LOOK = 0.02, 1.0
# More rounds than a day's visits take.
MOST_ROUNDS = 30


class Demo:
    """Ends with its context."""

    def __init__(self, program, board, port, speed, seed, at):
        self.clock, self.seed, self.stack, self.failed, self.why = Clock(speed, at), seed, contextlib.ExitStack(), threading.Event(), None
        self.is_ending = False
        try:
            self.address = Address(port, board, os.path.join(LARGE, "preferences.csv"), self.clock, TRAINING)
        except OSError as why:
            taken = why.errno == errno.EADDRINUSE
            words = f"port {port} of 127.0.0.1 is taken: end what uses it, or choose another port with --port" if taken else f"port {port}: {why.strerror}"
            raise Unable(words) from why
        self.stack.callback(self.address.server_close)
        # What is written is gone at the end, so that it need not come to a disk.
        memory = "/dev/shm" if os.access("/dev/shm", os.W_OK) else None
        self.folder = self.stack.enter_context(tempfile.TemporaryDirectory(prefix="apron-demo-", dir=memory, ignore_cleanup_errors=True))
        self.server = Server(program, write_airport(self.folder, self.clock), self.folder)
        self.stack.callback(self.server.end)
        self.writer = Writer(self.clock, STATION)
        # Who plays today; and whether a stand is lost, and an alarm comes, soon after the beginning.
        self.today, self.loses, self.alarms = None, False, False

    def __enter__(self):
        return self

    def __exit__(self, *_):
        self.is_ending = True
        self.stack.close()

    def prepare(self):
        """Today up to now: with the aircraft that stand here since the evening before."""
        stay = [it for it in visits_of(YESTERDAY, self.clock) if it["off"] > MINUTES_OF_DAY]
        season = os.path.join(self.folder, "season.csv")
        write_season(season, stay + visits_of(TODAY, self.clock))
        self.server.make_plan(season)
        self.server.start()
        self.today = Play(self.server, Link(self.server.port), self.writer, self.seed)
        link, now = self.today.link, self.clock.minute()
        visits = link.read(f"/day/{TODAY}")["visits"]
        left = {it["visit"] for number, it in enumerate(visits) if number % LEFT == 0 and it["on"] > now + LEFT_AFTER}
        self.place(link, lambda visit: visit not in left)
        self.today.catch_up(MINUTES_OF_DAY - EVENING, now, STEP, LEFT_LOST)
        self.loses, self.alarms = prepare(self.today, now)
        self.address.lead_to(self.server.port)

    def place(self, link, wanted):
        for _ in range(MOST_ROUNDS):
            if self.server.place(link, wanted) == 0:
                return

    def open(self):
        """Answers at the address, and plays, until the demonstration ends."""
        for task in (self.address.serve_forever, self.live, self.fill):
            threading.Thread(target=self.watched, args=(task,), daemon=True).start()

    def watched(self, task):
        """Runs a task, and has the demonstration end if it fails: mostly since the server is gone."""
        try:
            task()
        except Exception as why:
            if self.is_ending:
                return
            self.why = f"the server has ended: {self.server.said().strip()}" if self.server.has_ended() else f"{task.__name__} failed: {why!r}"
            self.failed.set()

    def live(self):
        while self.clock.minute() < self.today.days * MINUTES_OF_DAY:
            self.today.step(self.clock.minute())
            time.sleep(LOOK)

    def fill(self):
        """Tomorrow and yesterday, while boards are open: the one on its stands, the other as it was."""
        link = Link(self.server.port)
        self.place(link, self.add(link, visits_of(TOMORROW, self.clock)).__contains__)
        gone = [it for it in visits_of(YESTERDAY, self.clock) if it["off"] <= MINUTES_OF_DAY]
        tell_past(link, self.writer, self.seed, self.add(link, gone), lambda wanted: self.place(link, wanted))

    def add(self, link, visits):
        """Adds visits; their numbers."""
        numbers = []
        for visit in visits:
            numbers.append(link.post("/visits", visit)[1]["visit"])
            time.sleep(PAUSE)
        return set(numbers)
