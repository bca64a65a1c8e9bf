"""The words that the program takes, and those that its documents say that it takes; and what standard error says of faults."""

import os
import re
import tempfile

from shared import TOP
from journal_holds.journals import bytes_of, journal, ran


def causes(program):
    """Standard error names the file and the cause of each fault, and what was not understood."""
    with journal(program) as server:
        files, path = server.files, server.journal
        none = os.path.join(server.room, "none")
        plain = "in digits with no zero in front; see apron --help"
        rows = [
            (["check", none, files[1]], 4, f"apron: {none}: No such file or directory (os error 2)"),
            (["check", files[0], server.room], 4, f"apron: {server.room}: Is a directory (os error 21)"),
            (["chart", *files, "1", none], 7, f"apron: {none}: No such file or directory (os error 2)"),
            (["desk", *files, server.room], 7, f"apron: {server.room}: Is a directory (os error 21)"),
            (["init", *files, os.path.join(none, "J")], 7, f"apron: {none}/J: No such file or directory (os error 2)"),
            (["import", *files, none, path], 4, f"apron: {none}: No such file or directory (os error 2)"),
            ([], 2, "apron: no word is given, or one is no text; see apron --help"),
            (["charts"], 2, "apron: no word 'charts'; see apron --help"),
            (["chart", *files, path], 2, "apron: chart takes AIRPORT TYPES DAY JOURNAL; see apron --help"),
            (["chart", *files, "99", path], 2, "apron: DAY is '99', and has to be a day of the plan, 1 to 3"),
            (["make", "5001"], 2, f"apron: VISITS is '5001', and has to be 1 to 5,000, {plain}"),
            (["propose", *files, "P", "1", none], 7, f"apron: {none}: No such file or directory (os error 2)"),
            (["upgrade", *files, none], 7, f"apron: {none}: No such file or directory (os error 2)"),
            (["upgrade", *files], 2, "apron: upgrade takes AIRPORT TYPES JOURNAL; see apron --help"),
            (["propose", *files, "p", "1", path], 2, "apron: DESK is 'p', and has to be 1 to 12 capitals, digits or dashes; see apron --help"),
        ]
        for words, status, errors in rows:
            ended, _, said = ran(program, *words)
            assert (ended, said) == (status, errors + "\n"), f"{words}: {ended}, {said}"


def told_forms(program):
    """Each word with what comes after it: in the headings of docs/reference/cli.md, in --help, and in the manual page."""
    page = bytes_of(os.path.join(TOP, "docs", "reference", "cli.md")).decode()
    manual = re.sub(r"\\f[BIR]", "", bytes_of(os.path.join(TOP, "packaging", "man", "apron.1")).decode())
    manual, _, _ = manual.partition("\n.SH DESCRIPTION\n")
    form = re.compile(r"^apron ((?:--)?[a-z]+(?: (?:[A-Z]+|screen))*)(?= |$)", re.MULTILINE)
    return re.findall(r"^### `(.+?)`$", page, re.MULTILINE), form.findall(ran(program, "--help")[1]), form.findall(manual)


def forms_in(wanted):
    """What can come after a word, by what standard error says that it takes: what is in brackets may be left out."""
    if wanted == "no other words":
        return {""}
    return {re.sub(r"\[.*?\] ", "", wanted), re.sub(r"[][]", "", wanted)}


def forms(program):
    """cli.md, --help and the manual page have the same words; each is taken as they have it, and refused with one word more or fewer."""
    table, helped, manual = told_forms(program)
    assert table and table == helped == manual, f"these differ:\n{table}\n{helped}\n{manual}"
    with tempfile.TemporaryDirectory() as room:
        rests_of = {}
        for word, _, rest in (it.partition(" ") for it in table):
            rests_of.setdefault(word, set()).add(rest)
            names = rest.split()
            # The last word, where a journal's path may stand, is a folder, so that no journal is made.
            status, _, errors = ran(program, word, *names[:-1], *names[-1:] and [room], cwd=room)
            named = re.search(r"^apron: ([A-Z]+)(?:: | is ').*\n\Z", errors, re.MULTILINE)
            assert named[1] in names if names and named else (status, errors) == (0, ""), f"{word} {rest} ended with {status}: {errors}"
        for word, rests in rests_of.items():
            counts = {len(it.split()) for it in rests}
            for count in {it + more for it in counts for more in (-1, 1)} - counts - {-1}:
                status, output, errors = ran(program, word, *["0"] * count, cwd=room)
                told = re.fullmatch(f"apron: {word} takes (.*); see apron --help\n", errors)
                assert (status, output) == (2, "usage\n") and told, f"{word} with {count} more ended with {status}: {errors}"
                assert forms_in(told[1]) == rests, f"{word} takes {rests}, and standard error tells {told[1]}"
        assert os.listdir(room) == [], "words that are not understood made a file"
