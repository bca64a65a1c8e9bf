"""The server of the demonstration: the program in a folder of its own, what it proposes, and requests to it."""

import http.client
import json
import os
import re
import shutil
import subprocess
import threading
import time

WORKERS, CONNECTIONS = 12, 1_000_000
PATIENCE = 30
LISTENING = re.compile(r"^apron: listening at 127\.0\.0\.1:(\d+),", re.MULTILINE)
DESK = "PLANNER"


class Unable(Exception):
    """Why the demonstration can't go on, in words."""


class Server:
    """The program at a port that the system chooses. Its journal and its messages are in the folder."""

    def __init__(self, program, files, folder):
        self.program, self.files, self.folder = program, files, folder
        self.journal, self.errors = os.path.join(folder, "apron.journal"), os.path.join(folder, "errors")
        self.process, self.port, self.drafts = None, None, 0
        self.placing = threading.Lock()

    def run(self, *words):
        """What the program prints with these words."""
        try:
            ran = subprocess.run([self.program, *words], stdin=subprocess.DEVNULL, stdout=subprocess.PIPE, stderr=subprocess.PIPE, text=True, timeout=PATIENCE)
        except OSError as why:
            raise Unable(f"the program does not start: {why}") from why
        if ran.returncode != 0:
            raise Unable(f"apron {words[0]} ended with {ran.returncode}: {(ran.stdout + ran.stderr).strip()}")
        return ran.stdout

    def make_plan(self, season):
        """A journal with the visits of a season file."""
        self.run("init", *self.files, self.journal)
        self.run("import", *self.files, season, self.journal)

    def start(self):
        # A session of its own: Ctrl+C of a terminal then reaches this script alone, which ends the server.
        words = [self.program, "serve", *self.files, str(CONNECTIONS), "127.0.0.1:0", str(WORKERS), self.journal]
        with open(self.errors, "w") as errors:
            self.process = subprocess.Popen(words, stdin=subprocess.DEVNULL, stdout=errors, stderr=errors, start_new_session=True)
        until = time.monotonic() + PATIENCE
        while self.port is None:
            if self.process.poll() is not None or time.monotonic() > until:
                raise Unable(f"the server does not start: {self.said().strip()}")
            found = LISTENING.search(self.said())
            self.port = found and int(found[1])
            time.sleep(0.002)

    def has_ended(self):
        return self.process.poll() is not None

    def said(self):
        with open(self.errors) as file:
            return file.read()

    def end(self):
        if self.process is not None and self.process.poll() is None:
            self.process.terminate()
            self.process.wait(PATIENCE)

    def place(self, link, wanted):
        """Puts unallocated parts of visits where the program proposes, one round of at most 64 parts; how many it proposes. If a client was quicker, and the
        commit is refused, they are proposed again in the next round."""
        with self.placing:
            self.drafts += 1
            copy = shutil.copy(self.journal, os.path.join(self.folder, "copy"))
            first, *lines = self.run("propose", *self.files, DESK, str(self.drafts), copy).splitlines()
            edits = [edit_of(line) for line in lines if line.startswith("put ")]
            edits = [it for it in edits if wanted(it["put"]["visit"])]
            commit = {"desk": DESK, "draft": self.drafts, "base": int(first.rpartition(" ")[2]), "edits": edits}
            if edits:
                link.post("/commits", commit)
            return len(edits)


def edit_of(line):
    """The edit of a line of a proposal."""
    _, part, stand = line.split()
    visit, part = map(int, part.split("."))
    return {"put": {"visit": visit, "part": part, "stand": stand}}


class Link:
    """A kept connection to the server, for one thread."""

    def __init__(self, port):
        self.link = http.client.HTTPConnection("127.0.0.1", port, timeout=PATIENCE)

    def ask(self, method, target, body=None, **fields):
        """The status and the value of the reply."""
        self.link.request(method, target, body, fields)
        reply = self.link.getresponse()
        return reply.status, json.loads(reply.read())

    def read(self, target):
        return self.ask("GET", target)[1]

    def post(self, target, value, desk="-"):
        body = value.encode() if isinstance(value, str) else json.dumps(value).encode()
        return self.ask("POST", target, body, **{"X-Desk": desk})

    def close(self):
        self.link.close()
