"""The methods by which parts that wait get stands. Each begins with the plan of the server and none is worse than `fit`: `chain` begins with
what `fit` left, and `search` with what `chain` left, and each keeps only what is better."""

import math
import random
import time

# How many parts may be in the way on a stand for a chain to move them, how many stands are tried so, and how deep a chain goes.
MOST_IN_WAY, MOST_CHANCES, DEPTH = 3, 12, 2
# What a part of priority 9 without a stand weighs for a search, which may for a while take what is worse; each priority before it twice as much.
WEIGHT = 1000
# The temperatures of a search at its begin and its end, in costs.
HOT, COLD = 4000, 8


def waiting(allocation):
    """The parts without a stand, by rank."""
    return sorted((it for it in allocation.parts if it.is_free and it.stand is None), key=lambda it: it.rank)


def first_fit(allocation):
    """As `apron propose`: by rank, each part on the first stand in the order of the airport file."""
    for part in waiting(allocation):
        stand = next((it for it in sorted(part.options) if not allocation.blockers(part, it, 0)), None)
        if stand is not None:
            allocation.put(part, stand)
    allocation.trail.clear()


def best_stand(allocation, part, is_tightest_first):
    """The free stand that a planner would take: the tightest of the cheapest ones or the cheapest of the tightest; among equals the one with
    the longest gaps before and after."""
    stands, best = allocation.rules.stands, None
    for stand in part.options:
        tight = stands[stand]["letter"], len(allocation.near[stand])
        key = (*tight, part.costs[stand]) if is_tightest_first else (part.costs[stand], *tight)
        if best is not None and key > best[0][0]:
            continue
        if not allocation.blockers(part, stand, 0):
            found = (key, allocation.tightness(part, stand)), stand
            if best is None or found[0] < best[0]:
                best = found
    return None if best is None else best[1]


def place(allocation, parts, is_tightest_first=False):
    """Puts these parts, one after the other, on the best free stands."""
    for part in parts:
        stand = best_stand(allocation, part, is_tightest_first)
        if stand is not None:
            allocation.put(part, stand)
    allocation.trail.clear()


def fit(allocation):
    """Each part that waits gets the best free stand, priority by priority. Of four orders, which are two of the parts of a priority and two of stands,
    and of first fit, the one that does best is kept."""
    parts, start, found = waiting(allocation), allocation.stands(), []
    orders = parts, sorted(parts, key=lambda it: (it.of_class, len(it.options), it.rank))
    ways = [lambda order=order, is_tightest_first=it: place(allocation, order, is_tightest_first) for it in (False, True) for order in orders]
    for way in (*ways, lambda: first_fit(allocation)):
        way()
        found.append((allocation.value(), len(found), allocation.stands()))
        allocation.settle(start)
    allocation.settle(min(found, key=lambda it: it[:2])[2])


def seat(allocation, part, depth, kept, dice):
    """Puts the part on a free stand, or on one where all that are in its way find others: so far down as the depth says. Parts in `kept` stay.
    A part of a lower priority that waited itself may lose the stand that it just got."""
    chances = []
    for stand in part.options:
        found = allocation.blockers(part, stand, MOST_IN_WAY if depth else 0)
        if not found:
            allocation.put(part, stand)
            return True
        if depth and len(found) <= MOST_IN_WAY and all(it.is_free and it not in kept for it in found):
            chances.append((sum(it.end - it.begin for it in found), dice.random(), stand, found))
    for _, _, stand, found in sorted(chances)[:MOST_CHANCES]:
        mark = len(allocation.trail)
        for it in found:
            allocation.put(it, None)
        allocation.put(part, stand)
        if all(seat(allocation, it, depth - 1, kept | {part}, dice) or (it.waits and it.of_class > part.of_class)
               for it in sorted(found, key=lambda it: it.of_class)) and allocation.moves <= allocation.most_moves:
            return True
        allocation.back_to(mark)
    return False


def improve(allocation):
    """Moves parts to stands that cost less, and those in their way elsewhere. After two rounds little is left to gain.
    What then finds a free stand is put on it."""
    for part in [it for it in allocation.parts if it.is_free and it.stand is not None] * 2:
        for stand in part.options:
            if part.costs[stand] >= part.costs[part.stand] or is_cheaper(allocation, part, stand):
                break
    place(allocation, waiting(allocation))


def is_cheaper(allocation, part, stand):
    """Moves the part to a stand, and those in its way to others, if all cost less then; else nothing is changed."""
    found, before = allocation.blockers(part, stand, MOST_IN_WAY), allocation.value()
    if len(found) > MOST_IN_WAY or not all(it.is_free for it in found):
        return False
    gain = part.costs[part.stand] - part.costs[stand]
    most = {it: it.costs[it.stand] + gain for it in found}
    for it in found:
        allocation.put(it, None)
    allocation.put(part, stand)
    for it in found:
        other = next((other for other in it.options if it.costs[other] >= most[it] or not allocation.blockers(it, other, 0)), None)
        if other is not None and it.costs[other] < most[it]:
            allocation.put(it, other)
    is_done = allocation.value() < before and allocation.is_allowed()
    if not is_done:
        allocation.back_to(0)
    allocation.trail.clear()
    return is_done


def chain(allocation, dice):
    """Puts parts that are left where those in their way find other stands, if the plan is then better."""
    for part in waiting(allocation):
        before = allocation.value()
        seat(allocation, part, DEPTH, frozenset(), dice)
        if allocation.value() >= before or not allocation.is_allowed():
            allocation.back_to(0)
        allocation.trail.clear()


def worse_by(before, after):
    """By how much a value is worse than the one before, for a search: by the first priority that has more parts left, or by cost."""
    for of_class, (old, new) in enumerate(zip(before[0], after[0])):
        if old != new:
            return (new - old) * WEIGHT * 2 ** (len(before[0]) - 1 - of_class)
    return after[1] - before[1]


class Search:
    """Simulated annealing: puts random parts on random stands, with those in the way elsewhere or nowhere. What is better stays; what is worse
    stays more seldom the worse it is and the later it comes. The best plan that was met is kept."""

    def __init__(self, allocation, dice):
        self.allocation, self.dice = allocation, dice
        self.free = [it for it in allocation.parts if it.is_free and it.options]
        self.best, self.kept = allocation.value(), allocation.stands()

    def run(self, seconds, is_stopped=lambda: False):
        """Searches for these seconds of a processor. How many tries it made."""
        began, tries = time.process_time(), 0
        while self.free and not is_stopped():
            spent = (time.process_time() - began) / seconds if seconds else 1
            if spent >= 1:
                break
            tries += 1
            self.step(HOT * (COLD / HOT) ** spent, tries % 2)
        self.allocation.settle(self.kept)
        return tries

    def step(self, heat, is_of_waiting):
        allocation, dice = self.allocation, self.dice
        waits = [it for it in self.free if it.stand is None] if is_of_waiting else None
        part = dice.choice(waits or self.free)
        stand = dice.choice(part.options) if dice.random() < 0.6 else part.options[int(len(part.options) * dice.random() ** 3)]
        found = allocation.blockers(part, stand) if stand != part.stand else None
        if found is None or not all(it.is_free for it in found):
            return
        before = allocation.value()
        for it in found:
            allocation.put(it, None)
        allocation.put(part, stand)
        for it in sorted(found, key=lambda it: (it.of_class, dice.random())):
            seat(allocation, it, int(dice.random() < 0.2), frozenset([part]), dice)
        worse = worse_by(before, allocation.value())
        if not allocation.is_allowed() or (worse > 0 and dice.random() >= math.exp(-worse / heat)):
            allocation.back_to(0)
        allocation.trail.clear()
        if allocation.value() < self.best:
            self.best, self.kept = allocation.value(), allocation.stands()


def take_over(allocation, wanted):
    """After a refusal: gives parts the stands of an earlier plan as far as these are still free, without its moves if not all parts find a
    stand so. `wanted` has by visit and part the stand that a part had then, and the one that it was to have; a part that another client has
    put elsewhere stays there. The rest is placed again; if `fit` alone does better, its plan is kept."""
    start = allocation.stands()
    fit(allocation)
    value, stands = allocation.value(), allocation.stands()
    allocation.settle(start)
    goals = {}
    for part in start:
        was, stand = wanted.get((part.visit, part.number), (None, None))
        if stand is not None and part.was == was:
            goals[part] = stand
    settle_as_wanted(allocation, goals)
    if not allocation.is_allowed():
        allocation.settle(start)
        settle_as_wanted(allocation, {part: stand for part, stand in goals.items() if part.waits})
    place(allocation, waiting(allocation))
    if value < allocation.value():
        allocation.settle(stands)


def settle_as_wanted(allocation, goals):
    """Puts parts on the stands of this table that are free, or where they were, planned parts first."""
    for part in goals:
        allocation.put(part, None)
    for part in sorted(goals, key=lambda it: (it.waits, it.rank)):
        stand = next((it for it in (goals[part], part.was) if it is not None and not allocation.blockers(part, it, 0)), None)
        allocation.put(part, stand)


def plan(allocation, method, seconds, is_stopped=lambda: False, seed=1):
    """Plans by the method of this name."""
    dice = random.Random(seed)
    if method == "propose":
        first_fit(allocation)
        return
    fit(allocation)
    improve(allocation)
    if method != "fit":
        chain(allocation, dice)
        improve(allocation)
    if method == "search":
        Search(allocation, dice).run(seconds, is_stopped)
        improve(allocation)
