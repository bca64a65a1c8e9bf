"""Where a part would rather stand: the file of preferences, as docs/reference/planner.md tells it, and what a part costs on a stand by it. The server
does not read this file: it refuses no stand that only costs."""

import re

FIELDS = ["stand", "kind", "terminal", "area", "airlines", "types", "cost"]
KINDS, AREAS = ("contact", "remote", "cargo"), ("", "schengen", "other")
AIRLINE = re.compile(r"[A-Z]{3}|[A-Z][A-Z0-9]|[0-9][A-Z]")
TERMINAL, COST = re.compile(r"[A-Z0-9]{0,6}"), re.compile(r"[0-9]{1,3}")


class Fault(Exception):
    """What is wrong with a file of preferences, and where."""


def airline_of(flight):
    """The airline of a flight such as LH123 or DLH4K."""
    return flight[:3] if flight[2:3].isalpha() else flight[:2]


class Record:
    """The preferences of one stand. The airlines and the types are sets; an empty one means all."""

    def __init__(self, stand, kind, terminal, area, airlines, types, cost):
        self.stand, self.kind, self.terminal, self.area, self.cost = stand, kind, terminal, area, int(cost)
        self.airlines, self.types = frozenset(airlines.split()), frozenset(types.split())

    def names(self, airline, type):
        """Whether the stand is meant for an airline or a type, and for these."""
        return bool(self.airlines or self.types) and not self.misses(airline, type)

    def misses(self, airline, type):
        """How many of its airlines and its types this is not among."""
        return bool(self.airlines and airline not in self.airlines) + bool(self.types and type not in self.types)


class Preferences:
    """The records by stand, and the costs that were worked out. A stand without a record costs nothing."""

    def __init__(self, rules, records=()):
        self.rules, self.records, self.known, self.homes = rules, {it.stand: it for it in records}, {}, {}

    def home(self, airline, type):
        """The kinds, the terminals and the areas of the stands that are meant for this airline and type, and that the type fits."""
        if (airline, type) not in self.homes:
            number, stand_of = self.rules.type_of[type], self.rules.stand_of
            named = [it for it in self.records.values() if it.names(airline, type) and self.rules.unfit(stand_of[it.stand], number) is None]
            kinds, terminals, areas = ({getattr(it, key) for it in named} for key in ("kind", "terminal", "area"))
            self.homes[airline, type] = kinds or {"contact"}, terminals, areas
        return self.homes[airline, type]

    def costs(self, airline, type):
        """What a part of this airline and type costs on each stand that has a record: its cost, once for each column that does not suit."""
        key = airline, type
        if key not in self.known:
            kinds, terminals, areas = self.home(airline, type)
            self.known[key] = {
                name: it.cost * (it.misses(airline, type) + (it.kind not in kinds) + is_elsewhere(it.terminal, terminals)
                                 + is_elsewhere(it.area, areas)) for name, it in self.records.items()}
        return self.known[key]

    def is_bussed(self, airline, type, stand):
        """Whether this part would be at a building, and is on a remote or a cargo stand, of which none is meant for it."""
        kinds = self.home(airline, type)[0]
        return stand in self.records and self.records[stand].kind not in kinds and "contact" in kinds


def is_elsewhere(place, home):
    """Whether a terminal or an area is none of the part's own. An empty one suits all, and those who are at home nowhere are served anywhere."""
    return bool(place) and bool(home) and place not in home and "" not in home


def read(path, rules):
    """The preferences of a file, at the airport of these rules."""
    try:
        with open(path, encoding="utf-8-sig", newline="") as file:
            lines = file.read().split("\n")
    except (OSError, UnicodeDecodeError) as why:
        raise Fault(f"{path}: {why}") from why
    lines = [line.removesuffix("\r") for line in lines]
    if lines[0].split(",") != FIELDS:
        raise Fault(f"{path}:1:1: the first line is '{lines[0]}', and not '{','.join(FIELDS)}'")
    records, seen = [], {}
    for number, line in enumerate(lines[1:], 2):
        if line:
            records.append(record_of(f"{path}:{number}", line, rules, seen))
            seen[records[-1].stand] = number
    return Preferences(rules, records)


def record_of(place, line, rules, seen):
    """The record of a line; a fault names the column at which the field begins, counted from 1."""
    values = line.split(",")
    if len(values) != len(FIELDS):
        raise Fault(f"{place}:1: it has {len(values)} fields, and not {len(FIELDS)}: '{line}'")
    column = 1
    for field, value in zip(FIELDS, values):
        why = wrong(field, value, rules, seen)
        if why:
            raise Fault(f"{place}:{column}: {field} '{value}' {why}")
        column += len(value) + 1
    return Record(*values)


def wrong(field, value, rules, seen):
    """What is wrong with the value of a field, or None."""
    if field == "stand":
        if value in seen:
            return f"is in line {seen[value]} already"
        return None if value in rules.stand_of else "is no stand of the airport"
    if field == "kind":
        return None if value in KINDS else "is none of " + ", ".join(KINDS)
    if field == "area":
        return None if value in AREAS else "is neither empty nor schengen nor other"
    if field == "terminal":
        return None if TERMINAL.fullmatch(value) else "is not up to 6 capitals or digits"
    if field == "cost":
        return None if COST.fullmatch(value) else "is not a number of 1 to 3 digits"
    return wrong_list(field, value, rules)


def wrong_list(field, value, rules):
    """What is wrong with a list of airlines or of types, which has one space between two of them."""
    for word in value.split(" ") if value else ():
        if field == "airlines" and not AIRLINE.fullmatch(word):
            return f"has '{word}', which is no airline: three capitals, or two capitals or digits, not both digits"
        if field == "types" and word not in rules.type_of:
            return f"has '{word}', which is no type of the airport"
    return None
