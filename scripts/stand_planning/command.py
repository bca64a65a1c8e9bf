"""The command line of scripts/plan."""

import argparse
import datetime
import json
import re
import signal
import sys

from stand_planning import desk, methods, preferences, words
from stand_planning.allocation import Allocation, give_options
from stand_planning.cuts import cut_those_left
from stand_planning.rules import DAY

from plan_server import add_proxy_words, server_of

# How many drafts that are refused one after the other end a run, and the most moves: a circle of moves has to go into one draft.
MOST_REFUSED, MOST_MOVES = 10, 64
TIME = re.compile(r"([1-9][0-9]?)(?:/([01][0-9]|2[0-3]):?([0-5][0-9]))?")
EPILOGUE = """A time is a day of the plan, or a day, a slash and a time of it in UTC: 2, or 2/0430. A day alone is its first minute for --from,
and its last for --to. It ends with status 0 if all that was planned is in the plan, 1 if not, 2 for other words, and 130 after Ctrl+C."""


class Stop:
    """Whether the planner has pressed Ctrl+C: then no further draft is sent. A second Ctrl+C ends the program at once."""

    def __init__(self):
        self.is_pressed = False
        signal.signal(signal.SIGINT, self.press)

    def press(self, *_):
        signal.signal(signal.SIGINT, signal.default_int_handler)
        self.is_pressed = True

    def __call__(self):
        return self.is_pressed


def minute_of(word, is_end):
    """The minute of the plan that --from or --to says."""
    found = TIME.fullmatch(word)
    if found is None:
        raise argparse.ArgumentTypeError(f"'{word}' is no time such as 2 or 2/0430")
    day, hour, minute = found.groups()
    if hour is None:
        return int(day) * DAY if is_end else (int(day) - 1) * DAY
    return (int(day) - 1) * DAY + int(hour) * 60 + int(minute)


def moment_of(word):
    """The time that --now says."""
    try:
        moment = datetime.datetime.fromisoformat(word)
    except ValueError as why:
        raise argparse.ArgumentTypeError(f"'{word}' is no time such as 2026-07-02T04:30Z") from why
    return moment if moment.tzinfo else moment.replace(tzinfo=datetime.timezone.utc)


def number_in(least, most):
    """What reads a whole number between these two."""
    def number(word):
        if not word.isdecimal() or not least <= int(word) <= most:
            raise argparse.ArgumentTypeError(f"'{word}' is no number from {least} to {most}")
        return int(word)
    return number


def asked(about):
    it = argparse.ArgumentParser(usage="%(prog)s SERVER [options]", description=about, epilog=EPILOGUE,
                                 formatter_class=argparse.RawDescriptionHelpFormatter)
    it.add_argument("server", metavar="SERVER", help="where the server is, as http://127.0.0.1:8080 or https://localhost:8443/ham")
    add_proxy_words(it)
    it.add_argument("--preferences", metavar="FILE", help="where parts would rather stand (docs/reference/planner.md)")
    it.add_argument("--from", dest="begin", type=lambda word: minute_of(word, False), metavar="TIME", help="where planning begins; else with the plan")
    it.add_argument("--to", dest="end", type=lambda word: minute_of(word, True), metavar="TIME", help="where planning ends; else with the plan")
    it.add_argument("--method", choices=["fit", "chain", "search"], default="fit", help="fit (if it is left out), chain or search")
    it.add_argument("--seconds", type=number_in(1, 3600), default=10, metavar="N", help="how many seconds of a processor search takes, 10 if it is left out")
    it.add_argument("--moves", type=number_in(0, MOST_MOVES), default=0, metavar="N", help="how many planned parts may move to another stand, 0 if left out")
    it.add_argument("--frozen", type=number_in(0, 100000), default=60, metavar="MINUTES",
                    help="no part that begins within so many minutes of now moves, 60 if it is left out")
    it.add_argument("--now", type=moment_of, metavar="TIME", help="the time that counts as now, as 2026-07-02T04:30Z; else the machine's")
    it.add_argument("--tow", type=number_in(1, 100000), metavar="MINUTES", help="stays of MINUTES or more may be split, with a tow between the parts")
    it.add_argument("--dry-run", action="store_true", help="tells what would be done, and sends nothing")
    it.add_argument("--draft", metavar="FILE", help="with --dry-run: writes the edits to a file, which the board opens")
    it.add_argument("--desk", default="PLAN", metavar="NAME", help="the beginning of the client's name, up to 5 capitals and digits, PLAN if it is left out")
    given = it.parse_args()
    if given.begin is not None and given.end is not None and given.end <= given.begin:
        it.error("--to is not after --from")
    if given.draft and not given.dry_run:
        it.error("--draft needs --dry-run")
    if not re.fullmatch("[A-Z0-9]{1,5}", given.desk):
        it.error(f"--desk '{given.desk}' is not 1 to 5 capitals and digits")
    return given


class Planner:
    """A run of the program."""

    def __init__(self, given, server, stop):
        self.given, self.stop, self.desk = given, stop, desk.Desk(server, given.desk)
        self.airport = desk.Airport(self.desk.get("/airport"))
        rules = self.airport.rules
        self.preferences = preferences.read(given.preferences, rules) if given.preferences else preferences.Preferences(rules)
        # The stands before the last plan and in it, by visit and part, and the planned parts that this run has moved.
        self.wanted, self.moved = {}, set()

    def window(self):
        """What is planned, as of now."""
        given, first = self.given, datetime.date.fromisoformat(self.airport.first_day)
        midnight = datetime.datetime(first.year, first.month, first.day, tzinfo=datetime.timezone.utc)
        now = int(((given.now or datetime.datetime.now(datetime.timezone.utc)) - midnight).total_seconds() // 60)
        begin = 0 if given.begin is None else given.begin
        end = (self.airport.days + 2) * DAY if given.end is None else given.end
        return desk.Window(begin, end, now, given.frozen, given.moves - len(self.moved))

    def planned(self, picture, window, method):
        """A plan of the picture, and its splits. After a refusal it is the plan of before, as far as that is still possible."""
        allocation = Allocation(self.airport.rules, picture.parts, window.moves)
        if self.wanted:
            methods.take_over(allocation, self.wanted)
        else:
            methods.plan(allocation, method, self.given.seconds, self.stop)
        cuts = cut_those_left(allocation, self.airport, self.given.tow) if self.given.tow and method != "propose" else []
        return allocation, cuts

    def look(self):
        window = self.window()
        picture = desk.read(self.desk, self.airport, window)
        give_options(self.airport.rules, picture.parts, self.preferences)
        if picture.past:
            print(f"{picture.past} parts wait whose time is over ({words.time_of(max(window.now, 0))} is now): they are passed over", file=sys.stderr)
        return picture, window

    def run(self):
        """Plans and sends until all is in the plan, or Ctrl+C is pressed. After a refusal the next draft has half as many edits, so that it is less
        likely to meet an edit of another client."""
        placed = drafts = refused = 0
        most = desk.MOST_EDITS
        while True:
            picture, window = self.look()
            allocation, cuts = self.planned(picture, window, self.given.method)
            if self.given.dry_run:
                self.tell(picture, window, allocation, cuts)
                return
            changed = [it for it in allocation.parts if it.is_free and it.stand not in (None, it.was)]
            moves = {(it.visit, it.number) for it in changed if not it.waits}
            self.wanted = {(it.visit, it.number): (it.was, it.stand) for it in changed}
            planned = desk.drafts_of(self.airport, allocation, cuts, most)
            sent = desk.send(self.desk, picture.version, planned, moves, self.stop)
            self.moved |= sent.moved
            placed, drafts, refused = placed + sent.edits, drafts + sent.drafts, 0 if sent.drafts else refused
            if sent.refusal is None:
                break
            if sent.refusal["error"] not in ("overtaken", "clash", "gone", "onblock", "part", "cut"):
                raise desk.Fault(f"a draft was refused: {json.dumps(sent.refusal)}")
            refused, most = refused + 1, max(most // 2, 1)
            print(f"a draft was refused as {sent.refusal['error']}, since another client was quicker: the plan is read again", file=sys.stderr)
            if refused == MOST_REFUSED:
                raise desk.Fault("others edit all the time; what was sent so far is in the plan")
        self.tell_left(allocation)
        unsent = sum(map(len, planned)) - sent.edits
        print(f"{placed} edits are in the plan, in {drafts} drafts of the client {self.desk.name}; {len(self.moved)} planned parts moved, "
              f"and {sum(allocation.left)} parts are left" + (f"; {unsent} edits were not sent" if unsent else ""))

    def tell(self, picture, window, allocation, cuts):
        """Prints what would be done, what is left, and the score beside that of `propose`."""
        for line in words.changes(self.airport, allocation, cuts):
            print(line)
        self.tell_left(allocation)
        first, _ = self.planned(desk.Picture(picture.version, [it.again() for it in picture.parts], 0), window, "propose")
        print(words.HEADING)
        for name, it in (("propose (first fit)", first), (self.given.method, allocation)):
            print(words.Score(self.airport, it, self.preferences).row(name))
        if self.given.draft:
            self.write(picture, desk.drafts_of(self.airport, allocation, cuts))

    def tell_left(self, allocation):
        for line in (*words.closures(self.airport, allocation), *words.left_table(self.airport, allocation)):
            print(line)

    def write(self, picture, drafts):
        """Writes the file of a draft, one line of JSON: the airport's station and first day, the version that was read, the base and the edits of a
        commit, and how many of the edits each draft has, the first ones first, so that each applies whole (docs/guide/planner.md)."""
        value = {"station": self.airport.station, "first_day": self.airport.first_day, "version": picture.version, "base": picture.version,
                 "drafts": [len(it) for it in drafts], "edits": [edit for it in drafts for edit in it]}
        with open(self.given.draft, "w") as file:
            json.dump(value, file, separators=(",", ":"))
            file.write("\n")


def main(about):
    given = asked(about)
    try:
        server, stop = server_of(given), Stop()
        Planner(given, server, stop).run()
    except (desk.Fault, preferences.Fault, OSError) as why:
        sys.exit(f"plan: {why}")
    except KeyboardInterrupt:
        sys.exit(130)
    if stop():
        print("plan: ended by Ctrl+C", file=sys.stderr)
        sys.exit(130)
