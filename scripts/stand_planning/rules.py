"""The rules of stands, as docs/reference/files.md and http.md tell them: what fits a stand, which two stands exclude each other with aircraft of
given wing spans on them, and from which minute on two parts clash. Lengths are centimetres, times are minutes."""

from typing import NamedTuple

DAY = 1440
MOST = 2 ** 32 - 1
MOST_PARTS = 3
# Below which wing span a code letter ends, and the clearance between wing tips that it needs (ICAO Annex 14 Volume I).
LETTERS = [(1500, "A", 300), (2400, "B", 300), (3600, "C", 450), (5200, "D", 750), (6500, "E", 750), (8000, "F", 750)]


def letter_of(span):
    """The code letter of a wing span and its clearance."""
    return next((letter, clearance) for below, letter, clearance in LETTERS if span < below)


class Type(NamedTuple):
    """A type of aircraft: lengths in centimetres, times in minutes."""
    name: str
    span: int
    least: int
    parked: int
    fold: int

    @staticmethod
    def of(record):
        """The type of a record of three fields, or of five."""
        name, span, least, *folding = record
        parked, fold = folding or (span, 0)
        return Type(name, int(span), int(least), int(parked), int(fold))

    def span_at(self, begin, to, minute):
        """The wing span at this minute of a part from begin to to, and of its buffer: full near both ends, and parked between."""
        return self.span if minute < begin + self.fold or minute + self.fold >= to else self.parked

    def changes(self, begin, to):
        """The minutes of such a part at which the wing span may change."""
        return {begin + self.fold, to - self.fold}


class Rules:
    """The rules of an airport. Frontages, stands and pairs are those of its airport file, or of the reply to GET /airport; stands and
    types are known by their places in their lists."""

    def __init__(self, frontages, stands, pairs, types):
        self.objects = {it["name"]: it["objects"] for it in frontages}
        self.stands, self.pairs, self.types = stands, pairs, types
        self.stand_of = {it["name"]: place for place, it in enumerate(stands)}
        self.type_of = {type.name: place for place, type in enumerate(types)}
        self.rules = {}
        # Every rule grows stricter with the spans, so that stands that exclude each other do so for the widest type.
        widest = max(type.span for type in types)
        self.near = [[other for other in range(len(stands)) if self.breaks(stand, widest, other, widest)] for stand in range(len(stands))]

    def breaks(self, stand, span, other, other_span):
        """The first rule by which two stands exclude each other with aircraft of these wing spans on them, or None."""
        key = stand, span, other, other_span
        if key not in self.rules:
            self.rules[key] = self.first_rule(*key)
        return self.rules[key]

    def first_rule(self, stand, span, other, other_span):
        one, two = self.stands[stand], self.stands[other]
        if stand == other:
            return "same"
        if one.get("half_of") == two["name"] or two.get("half_of") == one["name"]:
            return "split"
        (letter, clearance), (other_letter, other_clearance) = letter_of(span), letter_of(other_span)
        wide = span + other_span + 2 * max(clearance, other_clearance)
        if one["frontage"] == two["frontage"] and 2 * abs(one["centre"] - two["centre"]) < wide:
            return "clearance"
        on = {one["name"]: letter, two["name"]: other_letter}
        if any(on.get(it["a"], "") >= it["la"] and on.get(it["b"], "") >= it["lb"] for it in self.pairs):
            return "pair"
        return None

    def meeting(self, slot, other, begins=0, ends=MOST):
        """The first of these minutes at which two slots of types clash, and the rule of that minute, or None."""
        (type, stand, begin, end), (other_type, other_stand, other_begin, other_end) = slot, other
        first, type, other_type = max(begin, other_begin, begins), self.types[type], self.types[other_type]
        to, other_to = end - self.stands[stand]["buffer"], other_end - self.stands[other_stand]["buffer"]
        for minute in sorted({first} | type.changes(begin, to) | other_type.changes(other_begin, other_to)):
            if first <= minute < min(end, other_end, ends):
                span, other_span = type.span_at(begin, to, minute), other_type.span_at(other_begin, other_to, minute)
                rule = self.breaks(stand, span, other_stand, other_span)
                if rule is not None:
                    return minute, rule
        return None

    def unfit(self, stand, type):
        """Why the type does not fit the stand, or None."""
        it, span = self.stands[stand], self.types[type].span
        letter, clearance = letter_of(span)
        if letter > it["letter"]:
            return "letter"
        for number, place in enumerate(self.objects[it["frontage"]], 1):
            if 2 * abs(it["centre"] - place) < span + 2 * clearance:
                return {"object": number}
        return None
