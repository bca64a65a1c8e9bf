"""What the trials of cost-trials measure with: a session that is asked over pipes, journals that are made, and figures with their bounds."""

import collections
import contextlib
import os
import resource
import select
import shutil
import statistics
import subprocess
import threading
import time

from shared import served
from shared.served import request
from shared.stand_plan import Airport, compact
from journal_bytes import journal_of

MOST_ADDRESSES, MOST_SECONDS = 4 * 2 ** 30, 600
# What a plan has room for, and a commit.
MOST_ENTRIES, MOST_VISITS, MOST_EDITS = 200_000, 20_000, 64
VERSION = request("GET", "/version")
# How often a request is asked, of which the middle cost is taken.
RUNS = 5
# What an opening of a full history may take.
OPENING, OPENING_MB = 10, 1024
MB = 10 ** 6

# What was measured, how much of which unit, and what is allowed.
Figure = collections.namedtuple("Figure", "what value unit most least", defaults=[None, None])


class Skipped(Exception):
    """A trial can't be made on this machine."""


class Desk:
    """The program as a session on a journal, which has been opened. It is asked over pipes while it runs."""

    def __init__(self, program, files, journal):
        self.process = subprocess.Popen([program, "desk", *files, journal], stdin=subprocess.PIPE, stdout=subprocess.PIPE, stderr=subprocess.DEVNULL)
        resource.prlimit(self.process.pid, resource.RLIMIT_AS, (MOST_ADDRESSES, MOST_ADDRESSES))
        self.until, self.text, self.at = time.monotonic() + MOST_SECONDS, bytearray(), 0
        try:
            self.version = int(self.ask([VERSION])[0].partition(b":")[2].rstrip(b"}"))
        except BaseException:
            self.end()
            raise

    def __enter__(self):
        return self

    def __exit__(self, *_):
        self.end()

    def end(self):
        self.process.kill()
        self.process.wait()
        self.process.stdout.close()
        with contextlib.suppress(OSError):
            self.process.stdin.close()

    def ask(self, requests):
        """The bodies of the replies to these requests, none of which may be refused."""
        sender = threading.Thread(target=self.send, args=[b"".join(requests)], daemon=True)
        sender.start()
        bodies = [self.reply() for _ in requests]
        sender.join()
        return bodies

    def send(self, text):
        # If the session has ended, its reply does not come, which shows it.
        with contextlib.suppress(OSError):
            self.process.stdin.write(text)
            self.process.stdin.flush()

    def reply(self):
        del self.text[:self.at]
        self.at = 0
        while not (head := served.HEAD.match(self.text)):
            self.more()
        code, begins, end = int(head[1]), head.end(), head.end() + int(head[3])
        while len(self.text) < end:
            self.more()
        self.at = end
        body = bytes(self.text[begins:end])
        assert code == 200, f"a request was answered with {code} and {body[:200]}"
        return body

    def more(self):
        ready = select.select([self.process.stdout], [], [], max(0, self.until - time.monotonic()))[0]
        piece = os.read(self.process.stdout.fileno(), 2 ** 20) if ready else None
        assert piece != b"", f"the desk ended with {self.process.wait()}"
        assert piece, "no reply came in ten minutes"
        self.text += piece

    def spent(self):
        return served.processor_time(self.process)

    def peak(self):
        """The most memory that was resident till now, in MB."""
        return served.peak_of(self.process) * 1024 / MB

    def cost(self, requests):
        """The microseconds that one of these requests takes, by the middle one of some runs of all."""
        costs = []
        for _ in range(RUNS):
            begun = self.spent()
            self.ask(requests)
            costs.append((self.spent() - begun) / len(requests) * 1e6)
        return statistics.median(costs)


class Room:
    """A folder with journals of an airport of the examples, each of which is made once."""

    def __init__(self, folder, example):
        self.folder, self.files, self.airport = folder, served.files_of(example), Airport(*served.files_of(example))

    def journal(self, name, commands):
        """The path of a journal with entries of the commands that this gives, which nobody writes to."""
        path = os.path.join(self.folder, name)
        if not os.path.exists(path):
            with open(path, "wb") as file:
                file.write(journal_of(self.files, commands()))
        return path

    def copy(self, journal):
        return shutil.copy(journal, os.path.join(self.folder, "copy"))

    def type(self, name="A320"):
        return self.airport.type_of[name]

    def apart(self):
        """Stands on which aircraft of this type may be at one time, by their numbers."""
        span, stands = self.airport.types[self.type()].span, []
        for stand in range(len(self.airport.stands)):
            if self.airport.unfit(stand, self.type()) is None and not any(self.airport.breaks(stand, span, it, span) for it in stands):
                stands.append(stand)
        return stands


def post(target, body):
    return request("POST", target, compact(body))


def opening(program, room, journal, what):
    """What it takes to open a journal."""
    begun = time.monotonic()
    with Desk(program, room.files, journal) as desk:
        opened = time.monotonic() - begun
        yield Figure(f"opening {what}", desk.spent(), "s", most=OPENING)
        yield Figure("the same, by the clock on the wall", opened, "s")
        yield Figure(f"memory after opening {what}", desk.peak(), "MB", most=OPENING_MB)
