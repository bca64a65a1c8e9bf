"""Stays that are split, so that parts that are left get stands: the part itself, if the beginning and the end of it find stands; or a
long stay in its way, which is towed from its stand or to it."""

from stand_planning.methods import place, waiting
from stand_planning.rules import MOST_PARTS

# Splits are planned at whole five minutes.
STEP = 5


class Cut:
    """A part that is split, and its two pieces, each on a stand."""

    def __init__(self, part, pieces):
        self.part, self.pieces = part, pieces

    def edits(self, airport):
        one, two = self.pieces
        place = {"visit": self.part.visit, "part": self.part.number}
        puts = [{"put": {"visit": it.visit, "part": it.number, "stand": airport.names[it.stand]}} for it in (one, two)]
        return [{"cut": {**place, "at": one.end}}, *puts]


def cut_those_left(allocation, airport, least):
    """Splits stays of `least` minutes or more for the parts that are left, by rank, and puts what then finds a free stand on it. The splits."""
    made = []
    for part in waiting(allocation):
        cut = cut_in_two(allocation, airport, part, least) or cut_in_way(allocation, airport, part, least)
        allocation.trail.clear()
        if cut is not None:
            made.append(cut)
    place(allocation, waiting(allocation))
    return made


def cut_in_way(allocation, airport, part, least):
    """Puts the part on a stand where only one part is in its way, and that one can be split."""
    for stand in part.options:
        found = allocation.blockers(part, stand)
        if len(found) == 1 and found[0].is_free and found[0].waits:
            allocation.put(found[0], None)
            allocation.put(part, stand)
            cut = cut_in_two(allocation, airport, found[0], least)
            if cut is not None:
                return cut
            allocation.back_to(0)
    return None


def cut_in_two(allocation, airport, part, least):
    """Splits a part that has no stand, so that its pieces have one each; None if that can't be."""
    if part.end - part.begin < least or part.pieces >= MOST_PARTS or part.cut is not None or not part.options:
        return None
    at = minute_of_cut(allocation, airport, part)
    if at is None:
        return None
    pieces = [part.piece(part.begin, at, part.number), part.piece(at + airport.tow, part.end, part.number + 1)]
    stands = [next((stand for stand in part.options if not allocation.blockers(piece, stand, 0)), None) for piece in pieces]
    if None in stands:
        return None
    cut = Cut(part, pieces)
    allocation.remove(part)
    for it in allocation.parts:
        it.pieces += it.visit == part.visit
    for piece, stand in zip(pieces, stands):
        piece.cut = cut
        allocation.add(piece)
        allocation.put(piece, stand)
    return cut


def minute_of_cut(allocation, airport, part):
    """The latest minute up to which some stand is free from the part's begin on, if after a tow some stand is free up to its end."""
    least, latest, earliest = airport.rules.types[part.type].least, part.begin, part.end
    for stand in part.options:
        found = allocation.blockers(part, stand)
        if not found:
            continue
        latest = max(latest, min(it.begin for it in found) - allocation.buffer[stand])
        earliest = min(earliest, max(it.end + allocation.buffer[it.stand] for it in found))
    at = min(latest, part.end - airport.tow - least) // STEP * STEP
    return at if at >= part.begin + least and at + airport.tow >= earliest else None
