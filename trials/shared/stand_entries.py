"""The history in a journal's bytes of format 2, read apart from the program as docs/reference/journal-format.md tells them: visits, commits and
cancels, each as the ask that stand_plan.py answers."""

import struct


class Reader:
    """Reads fields from the bytes of an entry."""

    def __init__(self, text):
        self.text, self.at = text, 0

    def number(self, form):
        number, = struct.unpack_from("<" + form, self.text, self.at)
        self.at += struct.calcsize("<" + form)
        return number

    def name(self):
        length = self.number("B")
        self.at += length
        return self.text[self.at - length:self.at].decode()


def entries_of(airport, journal):
    """The entries of a journal of format 2: the call number, and the command as an ask that has seen nothing."""
    assert (journal[:5], journal[5:8]) == (b"APRNJ", b"2\r\n"), f"a journal begins with {journal[:8]}"
    _, behind = records_of(journal, 72)
    records, _ = records_of(journal, behind)
    return [entry_of(airport, Reader(it), len(it)) for it in records]


def records_of(journal, at):
    """The records of the part whose first flag stands here, and the place after the gate that ends it."""
    records = []
    while journal[at] == 1:
        length, = struct.unpack_from("<H", journal, at + 1)
        records.append(journal[at + 3:at + 3 + length])
        at += 3 + length
    return records, at + 1


def entry_of(airport, text, length):
    call, kind = text.number("Q"), text.number("B")
    if kind == 1:
        name, type, of_class = text.name(), text.number("H"), text.number("B")
        on, off, arr, dep = text.number("I"), text.number("I"), text.number("B"), text.number("B")
        assert (arr, dep) == (0, 0), "an entry has a flight"
        said = {"name": name, "type": airport.types[type].name, "class": of_class, "on": on, "off": off, "arr": None, "dep": None}
        entry = "add", said, 0
    elif kind == 2:
        desk, draft, base, count = text.name(), text.number("I"), text.number("I"), text.number("B")
        entry = "commit", {"desk": desk, "draft": draft, "base": base, "edits": [edit_of(airport, text) for _ in range(count)]}, 0
    else:
        assert kind == 5, f"an entry is of kind {kind}"
        entry = "cancel", {"visit": text.number("I")}, 0
    assert text.at == length, "an entry has bytes left over"
    return call, entry


def edit_of(airport, text):
    kind, said = text.number("B"), {"visit": text.number("I"), "part": text.number("B")}
    if kind == 1:
        said["stand"] = airport.stands[text.number("H")]["name"]
    elif kind == 3:
        said["at"] = text.number("I")
    return {("put", "lift", "cut", "join")[kind - 1]: said}
