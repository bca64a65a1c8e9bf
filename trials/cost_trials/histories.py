"""What long histories cost: drafts whose names are chosen, visits of one flight, and commits of as many edits as there may be."""

from shared.chosen_names import chosen
from shared.served import request
from cost_trials.session import MOST_EDITS, MOST_ENTRIES, MOST_VISITS, Desk, Figure, Room, opening, post
from journal_bytes import cancel_of, commit_of, key_of, message_of, put_of, visit_of

CHOSEN = 190_000
LIVE, MESSAGES = 4, 160_000
# Of how many visits a message is to cost little more than of few.
FEW_VISITS = 20


def chosen_names(program, folder):
    """Drafts whose names are chosen against a table with a fixed seed cost at most half as much again as others, and so does opening them."""
    room, costs = Room(folder, "demo"), {}
    empty = room.journal("empty", list)
    visit = post("/visits", {"name": "V1", "type": "A320", "class": 3, "on": 600, "off": 660})
    for kind, numbers in (("ordinary", range(1, CHOSEN + 1)), ("chosen", chosen("D", CHOSEN))):
        put = '{"desk":"D","draft":%d,"base":%d,"edits":[{"put":{"visit":1,"part":1,"stand":"N%d"}}]}'
        commits = [request("POST", "/commits", (put % (number, place, place % 2 + 1)).encode()) for place, number in enumerate(numbers, 1)]
        journal = room.copy(empty)
        with Desk(program, room.files, journal) as desk:
            begun = desk.spent()
            desk.ask([visit, *commits])
            session = desk.spent() - begun
        with Desk(program, room.files, journal) as desk:
            assert desk.version == CHOSEN + 1, f"the journal has {desk.version} entries"
            costs[kind] = {"a session of": session, "opening": desk.spent()}
    for what, seconds in costs["chosen"].items():
        yield Figure(f"{what} {CHOSEN} chosen names", seconds, "s")
        yield Figure("the same of ordinary names", costs["ordinary"][what], "s")
        yield Figure(f"{what} chosen names, of ordinary ones", seconds / costs["ordinary"][what], "times", most=1.5)


def message(element, flight=1, station="MUC"):
    return f"MVT\nLH{flight}/27.DAIQA.{station}\n{element}\n"


def expected(count):
    """Messages by which the first visit that is neither gone nor cancelled of the flight is expected a minute later and a minute sooner in turn."""
    return [message("EA10%02d APR" % (number % 2)) for number in range(count)]


def of_one_flight(room, visits, messages=()):
    """Visits that all come by one flight and leave by one, of which every second one is cancelled, and the others but the last ones leave, each
    by a message about the first that is live; then these messages."""
    came, leaves = key_of("LH", 1, 1), key_of("LH", 2, 1)
    yield from (visit_of(f"V{number}", room.type(), number % 10, 600, 660, came, leaves) for number in range(1, visits + 1))
    yield from (cancel_of(number) for number in range(2, visits + 1, 2))
    yield from (message_of(message("AD1100", 2, "APR")) for _ in range(visits // 2 - LIVE))
    yield from map(message_of, messages)


def one_flight(program, folder):
    """A message of a flight with 20,000 visits, four of them live, costs at most three times as much as with 20; a full history of them opens soon."""
    room, costs = Room(folder, "demo"), []
    asked = [request("POST", "/mvt", it.encode()) for it in expected(1000)]
    for visits in (MOST_VISITS, FEW_VISITS):
        journal = room.copy(room.journal(f"flight-{visits}", lambda: of_one_flight(room, visits)))
        with Desk(program, room.files, journal) as desk:
            body = desk.ask(asked[:1])[0]
            assert b'"visit":%d}' % (visits - 2 * LIVE + 1) in body, f"a message is of another visit: {body}"
            costs.append(desk.cost(asked))
        yield Figure(f"a message of a flight with {visits} visits", costs[-1], "µs")
    yield Figure("the one, of the other", costs[0] / costs[1], "times", most=3)
    journal = room.journal("flight-full", lambda: of_one_flight(room, MOST_VISITS, expected(MESSAGES)))
    yield from opening(program, room, journal, f"{MESSAGES} messages of it")


def spread(room):
    """Visits at twenty times on four stands, or on four others, and the stands of each before and after a commit."""
    visits = [(600 + number % 20 * 70, number // 20) for number in range(MOST_EDITS)]
    stands = room.apart()
    return [on for on, _ in visits], [stands[row] for _, row in visits], [stands[row + MOST_EDITS // 20 + 1] for _, row in visits]


def abreast(room):
    """Visits at one time on as many stands, each of which goes to the stand of the next one and back."""
    stands = room.apart()[:MOST_EDITS]
    return [600] * MOST_EDITS, stands, stands[1:] + stands[:1]


def commits_of(room, plan):
    """A full history of commits that move all visits of this plan to and fro."""
    times, *stands = plan(room)
    yield from (visit_of(f"V{number}", room.type(), 3, on, on + 50) for number, on in enumerate(times, 1))
    edits = [[put_of(visit, 1, stand) for visit, stand in enumerate(row, 1)] for row in stands]
    for version in range(MOST_EDITS, MOST_ENTRIES):
        yield commit_of("D", version, version, edits[version % 2])


def long_commits(program, folder):
    """A full history of commits of 64 edits opens in under ten seconds and 1 GiB: at many times on few stands, and at one time on 64 stands."""
    room = Room(folder, "large")
    for plan, what in ((spread, "long commits at many times"), (abreast, "long commits at one time")):
        yield from opening(program, room, room.journal(plan.__name__, lambda: commits_of(room, plan)), what)
