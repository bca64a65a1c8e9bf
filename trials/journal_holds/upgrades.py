"""A journal of format 1: it is refused, and upgraded in its place, also on a disk that is full."""

import json
import os
import resource
import signal
import subprocess
import sys

from shared import served
from shared.served import request
from journal_holds.journals import ADDED, PLACED, VISIT, bytes_of, journal, old_journal, part_of, ran, reading, write


def entries_in(path):
    """The call number, the client and the route of each entry, as the reader of the examples prints them."""
    reader = os.path.join(served.EXAMPLES, "journal", "entries")
    printed = subprocess.run([sys.executable, reader, path], stdout=subprocess.PIPE, check=True, timeout=served.PATIENCE).stdout
    return [(it["call"], it["desk"], it["route"]) for it in map(json.loads, printed.splitlines())]


def upgrades(program):
    """A journal of format 1 is refused, and converted in its place by no more than section 2 behind it and its format byte; once."""
    with journal(program) as server:
        header = bytes_of(server.journal)
        assert (len(header), header[:8], header[72:]) == (74, b"APRNJ2\r\n", b"\0\0"), header
        server.run("desk", *server.files, server.journal, given=request("POST", "/visits", VISIT))
        server.run("desk", *server.files, server.journal, given=request(
            "POST", "/commits", b'{"desk":"D","draft":1,"base":1,"edits":[{"put":{"visit":1,"part":1,"stand":"N1"}}]}'))
        made = bytes_of(server.journal)
        assert made == header[:73] + part_of(ADDED, PLACED) and len(made) == 133, made
        old = old_journal(server)
        write(server.journal, old)
        lifted = old[:5] + b"2" + old[6:] + part_of(ADDED, PLACED)
        assert (len(old), len(lifted)) == (132, 192)
        upgrade = "upgrade", *server.files, server.journal
        for words in (*reading(server.files, server.journal), ["desk", *server.files, server.journal], ["serve", *server.words()[2:]]):
            assert ran(program, *words)[:2] == (8, "journal: old format\n"), words
        assert bytes_of(server.journal) == old, "a word changed a journal of format 1"
        assert ran(program, *upgrade) == (0, "upgraded 2\n", "")
        assert bytes_of(server.journal) == lifted, "an upgrade wrote something else"
        assert ran(program, *upgrade) == (0, "already format 2\n", "")
        assert bytes_of(server.journal) == lifted, "a second upgrade wrote something"
        assert entries_in(server.journal) == [(1, None, "/visits"), (2, "D", "/commits")]
        assert server.run("desk", *server.files, server.journal, given=request("GET", "/version")).endswith(b'{"version":2}')
        # A byte that is neither that of format 1 nor that of format 2 is what a stop may leave.
        for torn in (b"0", b"\0", b"3", b"\xff"):
            write(server.journal, old[:5] + torn + old[6:] + lifted[132:])
            assert ran(program, *upgrade) == (0, "upgraded 2\n", "")
            assert bytes_of(server.journal) == lifted, "an upgrade that goes on wrote something else"


def upgrades_without_room(program):
    """An upgrade on a disk that is full at any byte says so and leaves the old journal, and one that has room again is done."""
    with journal(program) as server:
        old = old_journal(server)
        upgrade = "upgrade", *server.files, server.journal
        for most in range(132, 193):
            def full():
                signal.signal(signal.SIGXFSZ, signal.SIG_IGN)
                resource.setrlimit(resource.RLIMIT_FSIZE, (most, most))
            write(server.journal, old)
            status, output, errors = ran(program, *upgrade, preexec_fn=full)
            if most < 192:
                wanted = f"apron: {server.journal}: File too large (os error 27)\n"
                assert (status, output, errors) == (7, "disk fault\n", wanted), (most, status, output, errors)
                assert bytes_of(server.journal)[:132] == old, "an upgrade that failed changed the old part"
                assert ran(program, "desk", *server.files, server.journal)[:2] == (8, "journal: old format\n")
                status, output, _ = ran(program, *upgrade)
            assert (status, output) == (0, "upgraded 2\n"), (most, status, output)
            assert len(bytes_of(server.journal)) == 192 and len(entries_in(server.journal)) == 2
