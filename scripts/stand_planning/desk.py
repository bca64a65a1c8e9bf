"""The client of a planner: it reads a plan from a server, and sends drafts. Edits are grouped so that each draft applies whole: a part comes
after those that have to leave its stand, or in the same draft."""

import http.client
import json
import os
import random
import re
import string
import sys
import time

from stand_planning.allocation import Part
from stand_planning.preferences import airline_of
from stand_planning.rules import DAY, Rules, Type

sys.path.append(os.path.normpath(os.path.join(os.path.dirname(os.path.abspath(__file__)), "..", "..", "examples", "client")))
from plan_server import answer_of

MOST_EDITS = 64
# The greatest buffer that a stand may have, in minutes.
MOST_BUFFER = 240
# Replies after which the same bytes are sent again, how often, and how many seconds later.
LATER, MOST_AGAIN, PAUSE = {502, 503, 504, 507}, 10, 1
# How often a plan is read again so that all its parts are of one version.
MOST_LOOKS = 5
CLOSURE = re.compile("CLOSED-[0-9]{1,5}")


class Fault(Exception):
    """Why no plan can be made: what the server answered, or that it did not."""


class Desk:
    """A client at a server, with a name of its own for each run, so that its drafts are counted from 1."""

    def __init__(self, server, name):
        self.server, self.link, self.seen, self.draft = server, server.connection(), 0, 0
        self.name = name + "-" + "".join(random.SystemRandom().choices(string.ascii_uppercase, k=6))

    def ask(self, method, target, body=None):
        """The status and the value of a reply. The same bytes are sent again if none comes: a draft is taken only once."""
        text = None if body is None else json.dumps(body, separators=(",", ":"))
        for again in range(MOST_AGAIN):
            try:
                status, told = answer_of(self.link, method, self.server.target(target), text, {**self.server.fields, "X-Seen": str(self.seen)})
            except (OSError, http.client.HTTPException) as error:
                self.link.close()
                status, told = None, str(error) or type(error).__name__
            if status is not None and status not in LATER:
                return status, self.value(target, status, told)
            if again < MOST_AGAIN - 1:
                time.sleep(PAUSE if again else 0.1)
        raise Fault(f"no reply to {target}: {told if status is None else status}")

    def value(self, target, status, told):
        try:
            value = json.loads(told)
        except ValueError:
            value = None
        if not isinstance(value, dict):
            raise Fault("the user or the password is wrong, or missing (--user)" if status == 401 else f"{target} got {status}, which is no reply of apron")
        self.seen = max(self.seen, value.get("version", 0))
        return value

    def get(self, target):
        status, value = self.ask("GET", target)
        if status != 200:
            raise Fault(f"{target} got {status}: {json.dumps(value)}")
        return value

    def commit(self, base, edits):
        """The status and the value of the reply to a draft."""
        self.draft += 1
        status, value = self.ask("POST", "/commits", {"desk": self.name, "draft": self.draft, "base": base, "edits": edits})
        if status == 200 and value["version"] <= base:
            raise Fault(f"another program sends drafts as {self.name}")
        return status, value


class Airport:
    """The airport of a server: its rules, and its days."""

    def __init__(self, told):
        types = [Type(it["name"], it["span"], it["least"], it["parked"], it["fold"]) for it in told["types"]]
        self.rules = Rules(told["frontages"], told["stands"], told["pairs"], types)
        self.days, self.tow, self.station, self.first_day = told["days"], told["tow"], told["station"], told["first_day"]
        self.names = [it["name"] for it in told["stands"]]


class Window:
    """Which parts are planned: those with a minute between two minutes of the plan, that are not over now. What is planned on a stand can
    move if `moves` is more than 0 and it begins no earlier than the frozen minutes after now."""

    def __init__(self, begin, end, now, frozen, moves):
        self.begin, self.end, self.now, self.frozen, self.moves = begin, end, now, frozen, moves

    def has(self, begin, end):
        return begin < self.end and end > self.begin

    def may_move(self, it, days, airport):
        """Whether a planned part may move, where the plan was read on these days: all that could be in its way has to be known."""
        is_known = it["from"] >= (days.start - 1) * DAY and (it["to"] + MOST_BUFFER <= (days.stop - 1) * DAY or days.stop > airport.days)
        return self.moves > 0 and not it["actual"] and self.has(it["from"], it["to"]) and it["from"] >= self.now + self.frozen and is_known


class Picture:
    """The plan as it was read: a version that no part is older than, and the parts. `past` is how many wait whose time is over."""

    def __init__(self, version, parts, past):
        self.version, self.parts, self.past = version, parts, past


def is_closure(visit):
    """Whether the visit closes a stand (docs/reference/board.md, Closures)."""
    return visit["class"] == 0 and CLOSURE.fullmatch(visit["name"]) is not None


def read(desk, airport, window, is_whole=False):
    """The picture of a window of the plan, read on the days that matter to what is planned, or on all days. While clients work its parts may be of
    several versions: then its version is the first, and the server refuses a draft over it that would undo what came later."""
    for _ in range(MOST_LOOKS):
        wait = desk.get("/unplaced")
        rows = [it for it in wait["parts"] if window.has(it["from"], it["to"])]
        chosen = [it for it in rows if it["to"] > window.now]
        days = range(1, airport.days + 1) if is_whole else days_of(chosen, airport, window)
        replies = [desk.get(f"/day/{day}") for day in days]
        if all(it["version"] == wait["version"] for it in replies):
            break
    visits = {it["visit"]: it for reply in replies for it in reply["visits"]}
    ranks = {(it["visit"], it["part"]): rank for rank, it in enumerate(chosen)}
    parts = [part for visit in visits.values() for part in parts_of(airport, window, visit, ranks, days)]
    return Picture(wait["version"], parts, len(rows) - len(chosen))


def days_of(rows, airport, window):
    """The days on which something may be in the way of these parts, wherever they stand; and the days of the window, if planned parts may move."""
    spans, first = [(it["from"], it["to"]) for it in rows], max(window.begin, window.now + window.frozen)
    if window.moves > 0 and first < window.end:
        spans.append((first, window.end))
    if not spans:
        return range(0)
    first, last = min(begin for begin, _ in spans) // DAY + 1, (max(end for _, end in spans) + MOST_BUFFER) // DAY + 1
    return range(min(first, airport.days), min(last, airport.days) + 1)


def parts_of(airport, window, visit, ranks, days):
    """The parts of a visit that hold stands, and those that wait in the window. A closure's are not free."""
    rules, flight = airport.rules, visit["arr"] or visit["dep"]
    for number, it in enumerate(visit["parts"], 1):
        was = None if it["stand"] is None else rules.stand_of[it["stand"]]
        is_waiting = was is None and (visit["visit"], number) in ranks
        if was is None and not is_waiting:
            continue
        may_move = visit["state"] not in ("gone", "cancelled") and window.may_move(it, days, airport)
        is_free = not is_closure(visit) and (is_waiting or may_move)
        part = Part(visit["visit"], number, rules.type_of[visit["type"]], visit["class"], it["from"], it["to"], was, is_free)
        part.label = flight["flight"] if flight else visit["name"]
        part.airline = airline_of(flight["flight"]) if flight else ""
        part.pieces, part.rank = len(visit["parts"]), ranks.get((visit["visit"], number), -1)
        yield part


def edit_of(kind, part, **more):
    return {kind: {"visit": part.visit, "part": part.number, **more}}


def groups(allocation):
    """The parts that the plan gives another stand, in groups: each group applies whole after those before it. A group is more than one part
    only where parts change places in a circle."""
    changed = [it for it in allocation.parts if it.is_free and it.cut is None and it.stand is not None and it.stand != it.was]
    moved = [it for it in changed if not it.waits]
    needs = {part: [it for it in moved if it is not part and is_in_way(allocation, part, it)] for part in changed}
    return circles(changed, needs)


def is_in_way(allocation, part, it):
    """Whether the part can't be on its stand while the other one is where it was."""
    end, buffer = part.end + allocation.buffer[part.stand], allocation.buffer[it.was]
    return part.begin < it.end + buffer and it.begin < end and part.visit != it.visit and any(
        other == it.was and allocation.excludes(part, part.stand, it, other, known) for other, known in allocation.near[part.stand])


def circles(nodes, needs):
    """The nodes in groups: those that need each other are in one, and what a group needs is in it or in one before it (Tarjan)."""
    low, stack, made, on_stack = {}, [], [], set()

    def visit(node):
        mine = low[node] = len(low)
        stack.append(node)
        on_stack.add(node)
        for other in needs[node]:
            if other not in low:
                visit(other)
            if other in on_stack:
                low[node] = min(low[node], low[other])
        if low[node] == mine:
            group = stack[stack.index(node):]
            del stack[len(stack) - len(group):]
            on_stack.difference_update(group)
            made.append(group)

    for node in nodes:
        if node not in low:
            visit(node)
    return made


def drafts_of(airport, allocation, cuts=(), most=MOST_EDITS):
    """The drafts of a plan: lists of edits that apply one after the other, each whole. The first has at most so many, or one group, and each
    further one twice as many as the one before, up to 64. Splits come last, a visit's later parts first, so that no split changes the number
    of a part that is named after it."""
    made = [[]]
    edits = [[edit_of("put", it, stand=airport.names[it.stand]) for it in group] for group in groups(allocation)]
    edits += [cut.edits(airport) for cut in sorted(cuts, key=lambda cut: -cut.part.number)]
    for group in edits:
        if made[-1] and len(made[-1]) + len(group) > most:
            made.append([])
            most = min(2 * most, MOST_EDITS)
        made[-1].extend(group)
    return made if made[0] else []


class Sent:
    """What became of drafts: how many edits and moves are in the plan, how many drafts, and the refusal that ended it, or None."""

    def __init__(self):
        self.edits, self.drafts, self.moved, self.refusal = 0, 0, set(), None


def send(desk, base, drafts, moves, is_stopped):
    """Sends drafts until one is refused. A visit that an earlier draft edited is named again only over a version after which nobody else
    came: else the plan has to be read again. Visits and parts in `moves` are counted as moved."""
    sent, edited = Sent(), set()
    for edits in drafts:
        visits = {said["visit"] for edit in edits for said in edit.values()}
        if is_stopped():
            return sent
        if visits & edited:
            sent.refusal = {"error": "overtaken"}
            return sent
        status, value = desk.commit(base, edits)
        if status != 200:
            sent.refusal = value
            return sent
        sent.drafts, sent.edits = sent.drafts + 1, sent.edits + len(edits)
        sent.moved |= {key for edit in edits for said in edit.values() if (key := (said["visit"], said["part"])) in moves}
        edited |= visits
        if value["version"] == base + 1:
            base, edited = value["version"], set()
    return sent
