"""What the scripts share that look at a journal beside a server: the airport's two files, the program that judges, and the check that a
journal was not emptied by a server of an early release. They need Python 3 and nothing else."""

import collections
import hashlib
import os
import re
import subprocess
import sys

import journal_bytes

HERE = os.path.dirname(os.path.realpath(__file__))
LAUNCHER = os.path.normpath(os.path.join(HERE, "..", "apron"))
PROGRAM = LAUNCHER if os.path.isfile(LAUNCHER) else "/usr/bin/apron"
NAMES = "airport.toml", "types.csv"
# The status of a journal of format 2 whose section 2 can't be what an upgrade wrote.
EMPTIED = 20
FAULT = re.compile(r"journal: (?:record|entry) (\d+)")
COUNTS = "{path}: the old part has {old} whole records, and the new part {new}. An upgrade copies each entry."
IS_EMPTIED = """\
So this journal was written after its upgrade by a program that knows only format 1 and takes no lock.
Nothing is lost: the entries of section 1 are all there. The rescue:
  1. End every program that has the journal open: fuser {path} shows them.
  2. cp -p {path} {path}.emptied
  3. printf 1 | dd of={path} bs=1 seek=5 conv=notrunc
  4. apron upgrade AIRPORT TYPES {path}
It then prints: upgraded {old}"""
IS_DAMAGED = """\
Section 2 begins as the upgrade wrote it, and is damaged at byte {end}: a server would go on from there, and write over what stands
behind. The rescue: salvage {path} NEW, and with --beyond if it says that whole records stand behind the damage."""

# What the program says of a journal: its status, its line, and the record or the entry that the line names, or None.
Verdict = collections.namedtuple("Verdict", "status line number")


class Unusable(Exception):
    """Why a journal or its files can't be used; the status is the script's."""

    def __init__(self, why, status=1):
        super().__init__(why)
        self.status = status


def read(path):
    """The bytes of a file, which has to be a plain one: a FIFO would never end."""
    if not os.path.isfile(path):
        raise Unusable(f"{path} is not a file")
    with open(path, "rb") as file:
        return file.read()


def call_of(entry, is_new):
    """The call number of an entry, or None where the bytes are none."""
    try:
        return journal_bytes.command_of(entry, is_new).call
    except journal_bytes.Unspelled:
        return None


def begins_as_upgraded(journal, old):
    """Whether the first entry of section 2 has the call number of section 1's, whatever the gate before it is."""
    at = old.end + 2
    size = int.from_bytes(journal[at:at + 2], "little")
    call = call_of(journal[at + 2:at + 2 + size], True)
    return call is not None and call == call_of(old.records[0].entry, False)


def refuse_emptied(path, journal, is_damage_refused=True):
    """Refuses a journal of format 2 whose section 1 has more whole records than section 2."""
    if not journal_bytes.is_journal(journal):
        return
    old, new = journal_bytes.parts_of(journal)
    if new is None or len(old.records) <= len(new.records):
        return
    is_damaged = begins_as_upgraded(journal, old)
    if is_damage_refused or not is_damaged:
        text = COUNTS + "\n" + (IS_DAMAGED if is_damaged else IS_EMPTIED)
        raise Unusable(text.format(path=path, old=len(old.records), new=len(new.records), end=new.end), EMPTIED)


def add_words(words):
    """The words by which a script is told where the airport's files and the program are."""
    words.add_argument("--airport", metavar="FILE", help="the airport file, if it is not airport.toml beside the journal or in /etc/apron")
    words.add_argument("--types", metavar="FILE", help="the type file, if it is not types.csv beside the journal or in /etc/apron")
    words.add_argument("--apron", default=PROGRAM, metavar="PATH", help="the program that judges, if it is not %(default)s")


def files_of(given, journal):
    """The paths of the airport file and the type file of a journal."""
    places = os.path.dirname(os.path.abspath(journal)), "/etc/apron"
    found = []
    for name, path in zip(NAMES, (given.airport, given.types)):
        paths = [path] if path else [os.path.join(place, name) for place in places]
        found.append(next(filter(os.path.isfile, paths), None))
        if found[-1] is None:
            raise Unusable(f"there is no {' and no '.join(paths)}: name the journal's own file")
    return found


def digests_of(files):
    """The bytes by which a journal names its two files."""
    return b"".join(hashlib.sha256(read(path)).digest() for path in files)


def judged(program, files, journal, is_new=True):
    """What the program says of a journal, which it only reads. One of format 1 it upgrades, so that has to be a copy."""
    word = "export" if is_new else "upgrade"
    ran = subprocess.run([program, word, *files, journal], stdin=subprocess.DEVNULL, stdout=subprocess.PIPE, stderr=subprocess.PIPE)
    line = ran.stdout.decode(errors="replace").partition("\n")[0]
    number = FAULT.match(line)
    if ran.returncode not in (0, 8):
        raise Unusable(f"the program can't judge: it ended with {ran.returncode}: {line} {ran.stderr.decode(errors='replace').strip()}")
    return Verdict(ran.returncode, line if ran.returncode else "", int(number[1]) if number else None)


def ended_by(script, action):
    """Ends the script with the status of an action, and says why where it could not be done."""
    try:
        sys.exit(action())
    except Unusable as why:
        print(f"{script}: {why}", file=sys.stderr)
        sys.exit(why.status)
    except OSError as why:
        print(f"{script}: {why.filename or 'a file'}: {why.strerror}", file=sys.stderr)
        sys.exit(1)
