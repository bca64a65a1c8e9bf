"""Who keeps a stand after a message or a report, worked out again and apart from the program, of visits as replies tell them: as
docs/reference/messages.md tells it under 'Who keeps the stand' and 'Why a part is displaced'."""

from typing import NamedTuple

from shared.stand_plan import Plan, Visit


class Ranked(NamedTuple):
    """A part on a stand, by what ranks it: the lesser one is better."""
    planned: bool
    priority: int
    on: int
    visit: int
    part: int


def happened(before, after):
    """The visit with the times that it has afterwards, and on the stands that it had before, but for the actual parts."""
    parts = list(after["parts"])
    for place, (old, new) in enumerate(zip(before["parts"], parts)):
        if not new["actual"]:
            parts[place] = {**new, "stand": old["stand"], "bump": old["bump"]}
    return {**after, "parts": parts}


def ranked(visits):
    """The parts on stands, the best first."""
    return sorted(
        Ranked(not part["actual"], it["class"], it["on"], it["visit"], number)
        for it in visits for number, part in enumerate(it["parts"], 1) if part["stand"] is not None)


def slot_of(airport, visit, part):
    stand = airport.stand_of[part["stand"]]
    return airport.type_of[visit["type"]], stand, part["from"], part["to"] + airport.stands[stand]["buffer"]


def settled(airport, entry, visits):
    """The visits as this entry leaves them: from the best part to the worst each is kept, if it is actual or clashes with no part that was
    kept; and the parts that were displaced."""
    visits = [{**it, "parts": list(it["parts"])} for it in visits]
    kept, displaced = [], []
    for rank in ranked(visits):
        visit = visits[rank.visit - 1]
        part = visit["parts"][rank.part - 1]
        slot = slot_of(airport, visit, part)
        bump = None if part["actual"] else first_blocker(airport, kept, rank, slot)
        if bump is None:
            kept.append((rank, slot))
        else:
            visit["parts"][rank.part - 1] = {**part, "stand": None, "bump": {**bump, "entry": entry, "stand": part["stand"]}}
            displaced.append({"part": rank.part, "visit": rank.visit})
    return visits, sorted(displaced, key=lambda it: (it["visit"], it["part"]))


def first_blocker(airport, kept, rank, slot):
    """The best of the kept parts that a part clashes with, and the first minute and the rule of that; or None."""
    for other, other_slot in kept:
        met = airport.meeting(slot, other_slot) if other.visit != rank.visit else None
        if met is not None:
            return {"blocker": {"part": other.part, "visit": other.visit}, "minute": met[0], "rule": met[1]}
    return None


def plan_of(airport, version, visits):
    """The plan of this version that has these visits, which judges drafts of visits that are not on block."""
    plan = Plan(airport)
    plan.version = version
    for told in visits:
        it = Visit(told, airport.type_of[told["type"]], version)
        it.edited, it.cancelled = told["edited"], told["state"] in ("gone", "cancelled")
        plan.visits.append(it)
        plan.place(told["visit"], [
            (part["from"], part["to"], None if part["stand"] is None else airport.stand_of[part["stand"]]) for part in told["parts"]])
    return plan
