"""What the scripts that try `apron serve` share: the program with an empty journal at a free port of this machine, and HTTP over a plain
socket. They need the Debian package python3."""

import collections
import os
import re
import resource
import shutil
import signal
import socket
import struct
import subprocess
import sys
import time

from shared import EXAMPLES, SCRIPTS

# Where a folder is in memory, or None if there is no such place: then it is where the system makes its own.
IN_MEMORY = "/dev/shm" if os.path.isdir("/dev/shm") else None
MOST_CONNECTIONS = 1_000_000
# How many seconds a peer waits for a reply, and a server for its port.
PATIENCE = 30
LISTENS = "0A"
LISTENING = re.compile(rb"^apron: listening at .*\n", re.MULTILINE)
LAST = object()
HEAD = re.compile(
    rb"HTTP/1\.1 (\d{3}) [A-Za-z ]+\r\nContent-Type: (application/json|text/plain)\r\nContent-Length: (\d+)\r\n"
    rb"(?:Allow: (?:GET|POST)\r\n)?(?:X-Version: (\d+)\r\n)?(Connection: close\r\n)?\r\n")

# The status, the body, the plan's version if the reply has it, and whether the reply says that the connection is closed.
Reply = collections.namedtuple("Reply", "code body version closes")


class Cut(Exception):
    """A connection ended, or a reply did not come, where one was specified."""


def program_of(word):
    """The program that is to be tried: the one of this path, or else the one that ./apron runs."""
    if word:
        return os.path.abspath(word)
    found = subprocess.run([os.path.join(SCRIPTS, "program")], stdout=subprocess.PIPE, text=True)
    if found.returncode != 0:
        sys.exit(70)
    return found.stdout.strip()


def files_of(example):
    """The airport file and the type file of an example."""
    return [os.path.join(EXAMPLES, example, name) for name in ("airport.toml", "types.csv")]


def processor_time(process):
    """The seconds of a processor that a process has taken since it began: those of all its threads, and of the system for them."""
    # The clock of a process has this number.
    return time.clock_gettime(~process.pid << 3 | 2)


def peak_of(process):
    """The most memory that the process has had resident, in kB."""
    with open(f"/proc/{process.pid}/status") as lines:
        return next(int(line.split()[1]) for line in lines if line.startswith("VmHWM:"))


def end_when_told():
    """Has a SIGTERM end this script as an exit does, so that the server that it started is ended too."""
    signal.signal(signal.SIGTERM, lambda *_: sys.exit(128 + signal.SIGTERM))


def free_port(host="127.0.0.1"):
    """A port at which nothing listens now."""
    family = socket.AF_INET6 if ":" in host else socket.AF_INET
    with socket.socket(family) as it:
        it.bind((host, 0))
        return it.getsockname()[1]


def listens_at(port):
    """Whether something on this machine listens at the port, found without a connection to it."""
    for table in ("/proc/net/tcp", "/proc/net/tcp6"):
        if os.path.exists(table):
            with open(table) as lines:
                for line in list(lines)[1:]:
                    _, local, _, state = line.split()[:4]
                    if state == LISTENS and int(local.rpartition(":")[2], 16) == port:
                        return True
    return False


class Server:
    """The program as a server in a folder of its own, perhaps with screens that show a day."""

    def __init__(self, program, room, workers, connections=MOST_CONNECTIONS, example="demo", host="127.0.0.1", screens=0, day=1):
        self.program, self.room, self.files = program, room, files_of(example)
        self.workers, self.connections, self.host = workers, connections, host
        self.port = free_port(host.strip("[]") if host.startswith("[") else "127.0.0.1")
        self.screens, self.day, self.screen_port = screens, day, free_port() if screens else None
        self.journal = os.path.join(room, "journal")
        self.process = None

    def make_journal(self):
        """An empty journal, in place of one that is there."""
        if os.path.exists(self.journal):
            os.remove(self.journal)
        self.run("init", *self.files, self.journal)

    def run(self, *words, given=b""):
        """What the program prints with these words, which end with 0."""
        ran = subprocess.run([self.program, *words], input=given, stdout=subprocess.PIPE, timeout=120)
        assert ran.returncode == 0, f"apron {words[0]} ended with {ran.returncode}: {ran.stdout[:200]}"
        return ran.stdout

    def copy(self):
        """The path of a copy of the journal, for what only reads it while the server runs."""
        return shutil.copy(self.journal, os.path.join(self.room, "copy"))

    def words(self):
        day = ["screen", str(self.day)] if self.screens else []
        screens = [f"{self.host}:{self.screen_port}", str(self.screens)] if self.screens else []
        desks = [f"{self.host}:{self.port}", str(self.workers)]
        return [self.program, "serve", *self.files, str(self.connections), *day, *desks, *screens, self.journal]

    def start(self, most_blocks=None):
        """Starts it, and waits until it says that it listens. Files that it writes may have so many blocks of 512 bytes, as on a disk that is full then."""
        shell = [] if most_blocks is None else ["/bin/sh", "-c", f'trap "" XFSZ && ulimit -S -f {most_blocks} && exec "$@"', "serve"]
        with open(os.path.join(self.room, "output"), "wb") as output, open(os.path.join(self.room, "errors"), "wb") as errors:
            self.process = subprocess.Popen(shell + self.words(), stdin=subprocess.DEVNULL, stdout=output, stderr=errors)
        until = time.monotonic() + PATIENCE
        while not LISTENING.search(self.said()[1]):
            assert self.process.poll() is None, f"the server ended with {self.process.returncode} before it listened"
            assert time.monotonic() < until, "the server does not say that it listens"
            time.sleep(0.002)
        while self.screens and not listens_at(self.screen_port):
            assert self.process.poll() is None, f"the server ended with {self.process.returncode} before it listened for screens"
            assert time.monotonic() < until, "the server does not listen for screens"
            time.sleep(0.002)

    def make_room(self):
        """Takes the limit on what it writes away."""
        resource.prlimit(self.process.pid, resource.RLIMIT_FSIZE, (resource.RLIM_INFINITY, resource.RLIM_INFINITY))

    def kill(self, how=signal.SIGKILL):
        """Ends it, if it has not ended, and takes its status."""
        if self.process is not None:
            if self.process.poll() is None:
                self.process.send_signal(how)
            self.process.wait(PATIENCE)

    def ended(self):
        """The status with which it ends by itself."""
        return self.process.wait(PATIENCE)

    def said(self):
        """What it wrote to standard output and to standard error."""
        said = []
        for name in ("output", "errors"):
            with open(os.path.join(self.room, name), "rb") as it:
                said.append(it.read())
        return said

    def link(self, patience=PATIENCE):
        return Link((self.host.strip("[]"), self.port), patience)

    def look(self, patience=PATIENCE):
        """What a screen shows: all that comes until the server closes the connection."""
        with socket.create_connection((self.host, self.screen_port), patience) as link:
            return read_all(link)


def read_all(link):
    """The bytes of a connection until the other end closes it."""
    pieces = []
    while piece := link.recv(65536):
        pieces.append(piece)
    return b"".join(pieces)


class Link:
    """A connection to a server."""

    def __init__(self, address, patience=PATIENCE):
        self.socket = socket.create_connection(address, patience)
        self.socket.setsockopt(socket.IPPROTO_TCP, socket.TCP_NODELAY, 1)
        self.rest = b""

    def __enter__(self):
        return self

    def __exit__(self, *_):
        self.close()

    def send(self, data):
        try:
            self.socket.sendall(data)
        except OSError as error:
            raise Cut(f"sending failed: {error}") from error

    def more(self):
        """Whether more bytes came; else the server has closed the connection."""
        try:
            piece = self.socket.recv(65536)
        except OSError as error:
            raise Cut(f"no reply came: {error}") from error
        self.rest += piece
        return bool(piece)

    def reply(self):
        """The next reply; or LAST where the server closed the connection behind the one before it."""
        while b"\r\n\r\n" not in self.rest:
            if not self.more():
                if self.rest:
                    raise Cut("a head is cut")
                return LAST
        head = HEAD.match(self.rest)
        assert head, f"this is no head of a reply: {self.rest[:100]}"
        end = head.end() + int(head[3])
        while len(self.rest) < end:
            if not self.more():
                raise Cut("a body is cut")
        body, self.rest = self.rest[head.end():end], self.rest[end:]
        return Reply(int(head[1]), body, None if head[4] is None else int(head[4]), head[5] is not None)

    def ask(self, request):
        """The reply to a request."""
        self.send(request)
        reply = self.reply()
        if reply is LAST:
            raise Cut("no reply came before the connection was closed")
        return reply

    def end_input(self):
        """Says that no more bytes come."""
        self.socket.shutdown(socket.SHUT_WR)

    def reset(self):
        """Breaks the connection off, so that what was sent and not yet read is lost."""
        self.socket.setsockopt(socket.SOL_SOCKET, socket.SO_LINGER, struct.pack("ii", 1, 0))
        self.socket.close()

    def close(self):
        self.socket.close()


def request(method, target, body=b"", seen=None, lines=(), version="1.1"):
    """The bytes of a request."""
    head = [f"{method} {target} HTTP/{version}"]
    if method == "POST" or body:
        head.append(f"Content-Length: {len(body)}")
    if seen is not None:
        head.append(f"X-Seen: {seen}")
    return "\r\n".join([*head, *lines, "", ""]).encode() + body
