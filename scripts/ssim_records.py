"""The records of a schedule file of IATA SSIM, chapter 7: 200 characters a line, of the types 1 to 5, and the legs that they say. What a record
has that is not understood is told with its line. It needs Python 3.11 alone."""

import collections
import datetime
import re
import zoneinfo

from season_records import DAY, MONTHS, Fault, short

LENGTH = 200
OPEN = "00XXX00"
DATE = re.compile(r"(\d{2})(%s)(\d{2})" % "|".join(MONTHS))
TIME = re.compile(r"(\d{2})(\d{2})")
VARIATION = re.compile(r"([+-])(\d{2})(\d{2})")
# How many days a station's date is after that on which the flight leaves its first airport; A and J are the day before.
LATER = {" ": 0, "A": -1, "J": -1} | {str(days): days for days in range(8)}
# Services by a vehicle on the ground, for passengers and for freight.
ON_GROUND = "UV"
# The data element that a code-share's leg has: it names the flight that operates the aircraft.
OPERATED_BY = "050"

# A block of one airline: its time mode, U or L, and its period of validity.
Block = collections.namedtuple("Block", "mode begin end")
# One end of a leg: the airport, the minutes after 00:00 of the flight's date, and what the local time is before UTC, in minutes.
End = collections.namedtuple("End", "airport minutes variation")


def field(line, first, last):
    """The characters of a record from one place to another, counted from 1, as the standard does."""
    return line[first - 1:last]


def date_of(word, what):
    """A date such as 04JUL26, of the years 2000 to 2099, or None for an open one."""
    if word == OPEN:
        return None
    found = DATE.fullmatch(word)
    try:
        return datetime.date(2000 + int(found[3]), MONTHS.index(found[2]) + 1, int(found[1]))
    except (TypeError, ValueError) as why:
        raise Fault(f"{what} '{word}' is not a date such as 04JUL26") from why


def minutes_of(word, what):
    found = TIME.fullmatch(word)
    if not found or int(found[2]) > 59 or int(word) > 2400:
        raise Fault(f"{what} '{word}' is not a time such as 0955")
    return int(found[1]) * 60 + int(found[2])


def later_of(letter, what):
    if letter not in LATER:
        raise Fault(f"the date variation '{letter}' of the {what} is not understood")
    return LATER[letter]


def variation_of(word, what):
    """The minutes by which local time is ahead of UTC."""
    found = VARIATION.fullmatch(word)
    if not found:
        raise Fault(f"the time variation '{word}' of the {what} is not one such as +0200")
    return (int(found[2]) * 60 + int(found[3])) * (-1 if found[1] == "-" else 1)


def flight_in(airline, number, suffix):
    """A designator such as LH123A, without leading zeros; nothing if there is no number."""
    digits = number.strip()
    if not digits and not airline.strip():
        return ""
    if not re.fullmatch(r"\d{1,4}", digits) or not re.fullmatch(r"[A-Z]{3}|[A-Z][A-Z0-9]|[0-9][A-Z]", airline.strip()) or not re.fullmatch("[A-Z ]", suffix):
        raise Fault(f"'{airline}{number}{suffix}' is not a flight such as LH 0123")
    return f"{airline.strip()}{int(digits)}{suffix.strip()}"


class Leg:
    """A leg of a flight, on the dates on which its flight leaves its first airport."""

    def __init__(self, line, place, block):
        self.line, self.block, self.airline = place, block, field(line, 3, 5).strip()
        self.flight = flight_in(field(line, 3, 5), field(line, 6, 9), field(line, 2, 2))
        self.variation, self.number = field(line, 10, 11) + field(line, 128, 128), field(line, 12, 13)
        if not self.flight or not self.number.isdigit():
            raise Fault(f"the leg number '{self.number}' of {self.flight or 'no flight'} is not understood")
        self.service, self.type = field(line, 14, 14), field(line, 73, 75).strip()
        self.begin, self.end = date_of(field(line, 15, 21), "the begin"), date_of(field(line, 22, 28), "the end")
        self.weekdays, self.fortnightly = self.days(field(line, 29, 35)), self.rate(field(line, 36, 36))
        self.out, self.into = self.place(line, 37, 44, 48, 193, "departure"), self.place(line, 55, 58, 66, 194, "arrival")
        if self.into.minutes - self.into.variation <= self.out.minutes - self.out.variation:
            raise Fault(f"{self.flight} arrives at {field(line, 58, 61)}, before it leaves at {field(line, 44, 47)}")
        self.onward = flight_in(field(line, 138, 140), field(line, 141, 144), field(line, 146, 146))
        self.layover = later_of(field(line, 145, 145), "onward flight") if self.onward else 0
        self.mark = field(line, 149, 149).strip()

    def days(self, word):
        if any(letter not in (" ", str(day)) for day, letter in enumerate(word, 1)):
            raise Fault(f"'{word}' is not days of operation such as 1 3 5 7")
        return {int(letter) for letter in word if letter != " "}

    def rate(self, letter):
        if letter not in " 12":
            raise Fault(f"the frequency rate '{letter}' is not understood")
        return letter == "2"

    def place(self, line, airport, time, variation, later, what):
        minutes = minutes_of(field(line, time, time + 3), f"the {what} time") + DAY * later_of(field(line, later, later), what)
        word = field(line, variation, variation + 4)
        # In UTC the variation tells nothing that is needed.
        ahead = 0 if self.block.mode == "U" else variation_of(word, what)
        return End(field(line, airport, airport + 2), minutes, ahead)

    @property
    def key(self):
        """What the legs of one flight have in common."""
        return self.flight, self.variation

    def dates(self, first, last):
        """The dates of operation from one date to another, in the time mode of the file."""
        begin = self.begin or self.block.begin
        ends = [it for it in (self.end or self.block.end, last) if it]
        if begin is None:
            raise Fault("an open begin, and the carrier's record has no date either")
        date = max(begin, first)
        while date <= min(ends):
            if date.isoweekday() in self.weekdays and not (self.fortnightly and (date - begin).days // 7 % 2):
                yield date
            date += datetime.timedelta(1)


class Schedule:
    """The legs of a schedule file that touch an airport, all legs by their flights, and the records that are not understood, by their lines."""

    def __init__(self, path, airport):
        self.path, self.airport, self.legs, self.flights, self.faults = path, airport, [], collections.defaultdict(dict), []
        self.counts, self.block, self.last, self.serial, self.ended, self.shares = collections.Counter(), None, None, None, False, {}
        place = 0
        with open(path, encoding="latin-1") as file:
            for place, line in enumerate(file, 1):
                self.read(line.rstrip("\n"), place)
        if not self.ended:
            self.faults.append((place, "the file has no trailer (type 5, E) at its end: it is cut off, and may lack flights"))

    def read(self, line, place):
        if not line.strip() or set(line) == {"0"}:
            return
        self.counts[line[0]] += 1
        try:
            if line[0] not in "12345":
                raise Fault(f"'{line[:30].rstrip()}' is no record of chapter 7")
            if len(line) != LENGTH:
                self.serial = None
                raise Fault(f"the record has {len(line)} characters, and not {LENGTH}")
            self.look_at_serial(line, place)
            {"1": self.header, "2": self.carrier, "3": self.leg, "4": self.segment, "5": self.trailer}[line[0]](line, place)
        except Fault as why:
            self.faults.append((place, str(why)))
            if line[0] in "23":
                self.last = None
            if line[0] == "2":
                self.block = None

    def look_at_serial(self, line, place):
        """Tells a gap in the serial numbers: records are missing there."""
        word = field(line, 195, 200).strip()
        if not word.isdigit():
            self.faults.append((place, f"the serial number '{word}' is none"))
        elif self.serial is not None and int(word) != self.serial + 1:
            self.faults.append((place, f"the serial number is {int(word)} after {self.serial}: records are missing or in another order"))
        self.serial = int(word) if word.isdigit() else None

    def header(self, line, place):
        if "AIRLINE STANDARD SCHEDULE DATA SET" not in line:
            raise Fault("the header does not say AIRLINE STANDARD SCHEDULE DATA SET")

    def carrier(self, line, place):
        mode = field(line, 2, 2)
        if mode not in "UL":
            raise Fault(f"the time mode '{mode}' is neither U nor L: the legs up to the next carrier's record are left out")
        self.block = Block(mode, date_of(field(line, 15, 21), "the begin of validity"), date_of(field(line, 22, 28), "the end of validity"))

    def leg(self, line, place):
        if self.block is None:
            raise Fault("no carrier's record (type 2) that is understood stands before this leg")
        self.last = leg = Leg(line, place, self.block)
        self.flights[leg.key].setdefault(int(leg.number), []).append(leg)
        if self.airport in (leg.out.airport, leg.into.airport):
            self.legs.append(leg)

    def segment(self, line, place):
        """Of segment data only a code-share's operating flight counts; it belongs to the leg before it."""
        if field(line, 31, 33) != OPERATED_BY:
            return
        if self.last is None or self.last.flight != flight_in(field(line, 3, 5), field(line, 6, 9), field(line, 2, 2)):
            raise Fault("a code-share's data (050) does not stand behind its leg")
        if field(line, 34, 36) == self.last.out.airport and field(line, 37, 39) == self.last.into.airport:
            self.shares[self.last.line] = field(line, 40, 194).strip()

    def trailer(self, line, place):
        check, self.ended = field(line, 188, 193).strip(), field(line, 194, 194) == "E"
        if check.isdigit() and self.serial is not None and int(check) != self.serial - 1:
            self.faults.append((place, f"the trailer says that the record before it is {int(check)}, and it is {self.serial - 1}"))
        self.last = self.block = None


class Clock:
    """Turns a leg's time at an airport into UTC."""

    def __init__(self, airport, zone):
        self.airport, self.zone = airport, zone and zoneinfo.ZoneInfo(zone)

    def utc(self, date, end, mode):
        """The time in UTC, and what a person should know about it, or nothing."""
        told = datetime.datetime.combine(date, datetime.time()) + datetime.timedelta(minutes=end.minutes)
        if mode == "U":
            return told, ""
        said = told - datetime.timedelta(minutes=end.variation)
        if self.zone is None or end.airport != self.airport:
            return said, ""
        # A clock that is put back shows a time twice, and one that is put forward never shows some.
        offsets = {told.replace(tzinfo=self.zone, fold=fold).utcoffset() for fold in (0, 1)}
        shown = [told - it for it in offsets if self.local(told - it) == told]
        if said in shown:
            return said, ""
        if len(shown) != 1:
            raise Fault(f"has a local time that is {'there twice' if shown else 'not there'}: {told:%H:%M}")
        return shown[0], f"the airport's clock is {hours(told - shown[0])} ahead of UTC, and not {hours(told - said)} as the record says: the clock counts"

    def local(self, utc):
        return utc.replace(tzinfo=datetime.timezone.utc).astimezone(self.zone).replace(tzinfo=None)


def hours(difference):
    minutes = int(difference.total_seconds()) // 60
    return f"{'-' if minutes < 0 else '+'}{abs(minutes) // 60:02}{abs(minutes) % 60:02}"
