"""What the trials of journal-holds share: journals of both formats, and the program run with words."""

import contextlib
import hashlib
import os
import subprocess
import tempfile

from shared import served
from shared.served import Server, request

VISIT = b'{"name":"V1","type":"A320","class":3,"on":600,"off":660}'
# Two entries: the visit V1 is added, and the client D puts it on the first stand. They are the same in both formats.
ADDED = bytes.fromhex("0100000000000000 01 025631 0000 03 58020000 94020000 00 00")
PLACED = bytes.fromhex("0200000000000000 02 0144 01000000 01000000 01 01 01000000 01 0000")


def bytes_of(path):
    """What a file has; nothing where there is none."""
    if not os.path.exists(path):
        return b""
    with open(path, "rb") as file:
        return file.read()


@contextlib.contextmanager
def journal(program):
    """A server that is not started, in a folder of its own with an empty journal."""
    with tempfile.TemporaryDirectory() as room:
        server = Server(program, room, 1, 1)
        server.make_journal()
        try:
            yield server
        finally:
            server.kill()


def part_of(*entries):
    """The bytes of a part of a journal that has these entries."""
    return b"".join(b"\1" + len(it).to_bytes(2, "little") + it for it in entries) + b"\0"


def old_journal(server):
    """The bytes of a journal of format 1 with the two entries."""
    return b"APRNJ1\r\n" + b"".join(hashlib.sha256(bytes_of(it)).digest() for it in server.files) + part_of(ADDED, PLACED)


def write(path, text):
    """Has the file have these bytes and no others."""
    with open(path, "wb") as file:
        file.write(text)


def ran(program, *words, given=b"", **more):
    """The status of the program with these words, and what it wrote."""
    it = subprocess.run([program, *words], input=given, stdout=subprocess.PIPE, stderr=subprocess.PIPE, timeout=served.PATIENCE, **more)
    return it.returncode, it.stdout.decode(), it.stderr.decode()


def words_on(server, path):
    """Each word that has a journal, but for `serve`, and what it is given."""
    return [(["init", *server.files, path], b""), (["desk", *server.files, path], request("POST", "/visits", VISIT)),
            (["chart", *server.files, "1", path], b""), (["export", *server.files, path], b""),
            (["import", *server.files, os.path.join(server.room, "season.csv"), path], b""),
            (["propose", *server.files, "P", "1", path], b""), (["upgrade", *server.files, path], b"")]


def reading(files, path):
    """The words that only read a journal."""
    return ["chart", *files, "1", path], ["export", *files, path], ["propose", *files, "P", "1", path]


def make_season(server):
    """The season file of a journal with one visit."""
    path = os.path.join(server.room, "one")
    server.run("init", *server.files, path)
    server.run("desk", *server.files, path, given=request("POST", "/visits", VISIT))
    write(os.path.join(server.room, "season.csv"), server.run("export", *server.files, path))
