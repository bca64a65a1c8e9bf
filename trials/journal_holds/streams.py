"""Standard streams that are closed or fail, and a disk that is full: the journal keeps what is in it, and standard error says what is wrong."""

import contextlib
import itertools
import os
import subprocess
import time

from shared import served
from shared.served import request
from journal_holds.journals import VISIT, bytes_of, journal, make_season, old_journal, words_on, write


def closed(streams):
    """What begins a program with these of the descriptors 0 to 2 closed."""
    ends = {0: "<&-", 1: ">&-", 2: "2>&-"}
    return ["/bin/sh", "-c", 'exec "$@" ' + " ".join(ends[it] for it in streams), "closed"]


SETS = [streams for count in range(4) for streams in itertools.combinations(range(3), count)]


def closed_streams(program):
    """With any of its standard streams closed a word leaves the journal as it was, or with exactly the entries that it makes."""
    with journal(program) as server:
        make_season(server)
        empty = bytes_of(server.journal)
        for words, given in words_on(server, server.journal):
            path = words[-1] = os.path.join(server.room, "fresh")
            wanted = None
            for streams in SETS:
                with contextlib.suppress(FileNotFoundError):
                    os.remove(path)
                before = old_journal(server) if words[0] == "upgrade" else empty
                if words[0] != "init":
                    write(path, before)
                it = subprocess.run(closed(streams) + [program, *words], input=given, stdout=subprocess.PIPE, stderr=subprocess.PIPE)
                wanted = wanted or bytes_of(path)
                assert wanted.startswith(empty[:72]), words
                left = [wanted] if streams in ((), (2,)) else [before, wanted]
                assert bytes_of(path) in left, f"{words[0]} without {streams}: the journal is neither as it was nor as it has to be"
                # A session that was asked nothing has nothing to write.
                owed = 6 if 1 in streams and not (words[0] == "desk" and 0 in streams) else 0
                assert it.returncode == owed, f"{words[0]} without {streams} ended with {it.returncode}"


def closed_streams_of_a_server(program):
    """The same of a server, which answers its client."""
    wanted = None
    for streams in SETS:
        with journal(program) as server:
            ends = {"stdin": subprocess.DEVNULL, "stdout": subprocess.PIPE, "stderr": subprocess.PIPE}
            server.process = process = subprocess.Popen(closed(streams) + server.words(), **ends)
            until = time.monotonic() + served.PATIENCE
            while not served.listens_at(server.port):
                assert process.poll() is None and time.monotonic() < until, f"a server without {streams} does not listen"
                time.sleep(0.002)
            with server.link() as link:
                assert link.ask(request("POST", "/visits", VISIT, lines=["Connection: close"])).version == 1
            server.kill()
            process.communicate()
            wanted = wanted or bytes_of(server.journal)
            assert bytes_of(server.journal) == wanted, f"without {streams} the journal has something else"


def streams_that_fail(program):
    """Standard error names a standard stream that fails, and the cause."""
    with journal(program) as server:
        words = [program, "desk", *server.files, server.journal]
        with open("/dev/full", "wb") as full:
            it = subprocess.run([program, "--help"], stdout=full, stderr=subprocess.PIPE)
        assert (it.returncode, it.stderr) == (6, b"apron: standard output: No space left on device (os error 28)\n"), it
        folder = os.open(server.room, os.O_RDONLY)
        try:
            it = subprocess.run(words, stdin=folder, capture_output=True)
        finally:
            os.close(folder)
        assert (it.returncode, it.stdout, it.stderr) == (5, b"", b"apron: standard input: Is a directory (os error 21)\n"), it


def full_disk(program):
    """A disk that is full is told of once, however often a client asks, and again once it had room."""
    with journal(program) as server:
        server.connections = served.MOST_CONNECTIONS
        server.start(most_blocks=1)
        line = f"apron: {server.journal}: File too large (os error 27)\n"
        with server.link() as link:
            codes = [link.ask(request("POST", "/visits", VISIT.replace(b"V1", b"V%d" % number))).code for number in range(40)]
            assert codes[0] == 200 and codes[-9:] == [503] * 9, codes
            assert server.said()[1].decode().count(line) == 1, server.said()
            server.make_room()
            assert link.ask(request("POST", "/visits", VISIT.replace(b"V1", b"LAST"))).code == 200
