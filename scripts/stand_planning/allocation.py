"""An allocation: which part is on which stand, with what it costs and which parts are left. It can be changed part by part, and taken back
to a mark. Of two allocations the better one leaves fewer parts of priority 0, then of priority 1, and so on, and then costs less."""

import copy
from bisect import bisect_left

from stand_planning.rules import MOST

CLASSES = 10
# What it costs to move a planned part, beside costs of preferences, which are of 1 to 3 digits.
MOVE_COST = 20
# Minutes between the buffer of one part and the next part on a stand, below which a small delay moves the next part.
SLACK = 20


class Part:
    """A part of a visit, by its numbers. Its stand is a place in the list of stands, or None; `was` is that of the server's plan."""

    __slots__ = ("visit", "number", "type", "of_class", "begin", "end", "was", "stand", "waits", "is_free", "costs", "options", "rank", "label",
                 "airline", "pieces", "cut")

    def __init__(self, visit, number, type, of_class, begin, end, was, is_free):
        self.visit, self.number, self.type, self.of_class = visit, number, type, of_class
        self.begin, self.end, self.was, self.stand = begin, end, was, None
        # Whether it is unallocated in the server's plan.
        self.waits = was is None
        # Whether a method may give it another stand; one that waits in the plan is planned here, another one has moved. A closure's part never is.
        self.is_free = is_free
        self.costs, self.options, self.rank = {}, [], 0
        # Its flight or its visit's name, its airline, how many parts the visit has, and the split of which it is a piece.
        self.label, self.airline, self.pieces, self.cut = "", "", 1, None

    def again(self):
        """The part as it was read, for another plan of the same picture."""
        part = copy.copy(self)
        part.stand, part.cut = None, None
        return part

    def piece(self, begin, end, number):
        """A piece of this part, which is another part of its visit."""
        part = self.again()
        part.begin, part.end, part.number, part.pieces = begin, end, number, self.pieces + 1
        return part


class Allocation:
    """Parts on stands. What is counted of it: parts left by priority, the cost of those on stands, and moves of planned parts."""

    def __init__(self, rules, parts, most_moves=0):
        self.rules, self.most_moves, self.parts = rules, most_moves, []
        self.held, self.begins = [[] for _ in rules.stands], [[] for _ in rules.stands]
        # The longest stay on each stand so far, with its buffer: what begins earlier than this before a minute is gone at it.
        self.longest = [0] * len(rules.stands)
        self.buffer = [it["buffer"] for it in rules.stands]
        # Whether parts overlap on a stand, as aircraft may that are there.
        self.is_tangled = [False] * len(rules.stands)
        # For each stand itself and then those near it, each with what is known of the types that exclude each other there.
        self.near = [[(other, {}) for other in sorted(near, key=lambda it: it != stand)] for stand, near in enumerate(rules.near)]
        self.left, self.cost, self.moves, self.lifted, self.trail = [0] * CLASSES, 0, 0, 0, []
        for part in parts:
            self.add(part)

    def add(self, part):
        """Takes a part in, on the stand that it has in the plan."""
        self.parts.append(part)
        if part.is_free:
            self.left[part.of_class] += 1
            self.lifted += not part.waits
        if part.was is not None:
            self.put(part, part.was)
        self.trail.clear()

    def remove(self, part):
        """Leaves out a part that has no stand."""
        self.parts.remove(part)
        self.left[part.of_class] -= 1
        self.trail.clear()

    def value(self):
        return tuple(self.left), self.cost

    def put(self, part, stand):
        """Puts the part on the stand, or on none, wherever it was."""
        self.trail.append((part, part.stand))
        if part.stand is not None:
            self.take_off(part)
        if stand is not None:
            place, held = bisect_left(self.begins[stand], part.begin), self.held[stand]
            self.is_tangled[stand] |= (place > 0 and held[place - 1].end > part.begin) or (place < len(held) and held[place].begin < part.end)
            self.begins[stand].insert(place, part.begin)
            held.insert(place, part)
            self.longest[stand] = max(self.longest[stand], part.end - part.begin + self.buffer[stand])
            self.count(part, stand, 1)
        part.stand = stand

    def take_off(self, part):
        held, begins = self.held[part.stand], self.begins[part.stand]
        place = bisect_left(begins, part.begin)
        while held[place] is not part:
            place += 1
        del held[place], begins[place]
        self.count(part, part.stand, -1)

    def count(self, part, stand, by):
        """Counts that the part is on the stand, or, if it is by -1, that it is there no more."""
        if part.is_free:
            self.left[part.of_class] -= by
            self.cost += by * part.costs.get(stand, 0)
            if not part.waits:
                self.lifted -= by
                self.moves += by * (stand != part.was)
                self.cost += by * MOVE_COST * (stand != part.was)

    def back_to(self, mark):
        """Takes back all that was done since the trail had this length."""
        while len(self.trail) > mark:
            part, stand = self.trail.pop()
            self.put(part, stand)
            self.trail.pop()

    def settle(self, stands):
        """Puts parts on the stands that they have in this table."""
        changed = [part for part, stand in stands.items() if part.stand != stand]
        for part in changed:
            self.put(part, None)
        for part in changed:
            self.put(part, stands[part])
        self.trail.clear()

    def stands(self):
        """The stands of the parts that are free."""
        return {part: part.stand for part in self.parts if part.is_free}

    def blockers(self, part, stand, most=MOST):
        """The parts in the way of this one on a stand; if they are more than `most`, one more than that."""
        begin, end, type, found = part.begin, part.end + self.buffer[stand], part.type, []
        for other, known in self.near[stand]:
            begins, held, buffer = self.begins[other], self.held[other], self.buffer[other]
            place, first = bisect_left(begins, end) - 1, begin - self.longest[other]
            while place >= 0 and begins[place] >= first:
                it = held[place]
                place -= 1
                if it.end + buffer <= begin:
                    if not self.is_tangled[other]:
                        break
                elif it.visit != part.visit and (known.get((type, it.type)) or self.excludes(part, stand, it, other, known)):
                    found.append(it)
                    if len(found) > most:
                        return found
        return found

    def excludes(self, part, stand, it, other, known):
        """Whether two parts that are there at one time exclude each other. If neither type folds its wing tips, that does not depend on times."""
        types = part.type, it.type
        if types not in known:
            one, two = (self.rules.types[type] for type in types)
            known[types] = None if (one.fold or two.fold) and stand != other else self.rules.breaks(stand, one.span, other, two.span) is not None
        if known[types] is None:
            slot = part.type, stand, part.begin, part.end + self.buffer[stand]
            return self.rules.meeting(slot, (it.type, other, it.begin, it.end + self.buffer[other])) is not None
        return known[types]

    def is_allowed(self):
        """No more planned parts have moved than may, and none has lost its stand."""
        return self.moves <= self.most_moves and not self.lifted

    def tightness(self, part, stand):
        """How many minutes are wanting to a slack before and after the part, if it were on this stand."""
        place, wanting = bisect_left(self.begins[stand], part.begin), 0
        if place:
            before = self.held[stand][place - 1]
            wanting += max(0, SLACK - (part.begin - before.end - self.buffer[stand])) if before is not part else 0
        following = self.held[stand][place] if place < len(self.held[stand]) else None
        if following is part:
            following = self.held[stand][place + 1] if place + 1 < len(self.held[stand]) else None
        if following is not None:
            wanting += max(0, SLACK - (following.begin - part.end - self.buffer[stand]))
        return wanting

    def tight_gaps(self):
        """How many parts follow another one on their stand with less than the slack after its buffer."""
        return sum(0 <= two.begin - one.end - self.buffer[stand] < SLACK
                   for stand, held in enumerate(self.held) for one, two in zip(held, held[1:]))


def give_options(rules, parts, preferences):
    """Gives each free part the stands that its type fits, with what it costs there, in the order in which a planner looks at them: the least
    cost, the smallest code letter, the fewest neighbours."""
    fits = {}
    for part in parts:
        if not part.is_free:
            continue
        if part.type not in fits:
            fits[part.type] = [stand for stand in range(len(rules.stands)) if rules.unfit(stand, part.type) is None]
        costs = preferences.costs(part.airline, rules.types[part.type].name)
        part.costs = {stand: costs.get(rules.stands[stand]["name"], 0) for stand in fits[part.type]}
        part.options = sorted(part.costs, key=lambda stand: (part.costs[stand], rules.stands[stand]["letter"], len(rules.near[stand])))
