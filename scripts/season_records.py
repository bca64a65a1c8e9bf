"""The records of a season file (docs/reference/files.md), in minutes of a plan or by times of day and days of operation. It needs Python 3 alone."""

import collections
import csv
import datetime
import re

DAY = 1440
HEADER = "name,type,class,on,off,arr,arrday,dep,depday".split(",")
PATTERN = ["days", "from", "to"]
NAME = re.compile(r"[A-Z0-9-]{1,12}")
FLIGHT = re.compile(r"([A-Z]{3}|[A-Z][A-Z0-9]|[0-9][A-Z])0*([1-9]\d{0,3}|0)([A-Z]?)")
DATE = re.compile(r"(\d{2})(JAN|FEB|MAR|APR|MAY|JUN|JUL|AUG|SEP|OCT|NOV|DEC)")
TIME = re.compile(r"(\d{2}):?(\d{2})(?:\+(\d))?")
MONTHS = "JAN FEB MAR APR MAY JUN JUL AUG SEP OCT NOV DEC".split()

# A visit as a season file has it; a flight is its designator and its day, or None.
Record = collections.namedtuple("Record", "name type rank on off arr dep")
# Days of operation: weekdays, 1 for Monday, between two dates of the plan's time.
Period = collections.namedtuple("Period", "weekdays begin end")


class Fault(Exception):
    """What is wrong with a record, a word or a file."""


def short(date):
    """A date such as 04JUL."""
    return f"{date:%d}{MONTHS[date.month - 1]}"


class Frame:
    """The plan that a season file is for: its first date, its days and its types."""

    def __init__(self, airport, types):
        self.first = datetime.date.fromisoformat(airport["first_day"])
        self.days, self.least = airport["days"], types

    @property
    def last(self):
        return self.first + datetime.timedelta(self.days - 1)

    def date(self, word):
        """The date of the plan that a word such as 04JUL names."""
        found = DATE.fullmatch(word)
        if not found:
            raise Fault(f"'{word}' is not a date such as 04JUL")
        for year in {self.first.year, self.last.year}:
            try:
                date = datetime.date(year, MONTHS.index(found[2]) + 1, int(found[1]))
            except ValueError:
                continue
            if self.first <= date <= self.last:
                return date
        raise Fault(f"'{word}' is no day of the plan, which has {short(self.first)} to {short(self.last)}")

    def period(self, days, begin, end):
        if not re.fullmatch(r"[1-7]{1,7}", days):
            raise Fault(f"'{days}' is not days of operation such as 1234567, of which 1 is Monday")
        return Period(set(map(int, days)), self.date(begin) if begin else self.first, self.date(end) if end else self.last)

    def shown(self, minute):
        """A minute of the plan as a date and a time of day."""
        day, rest = divmod(minute, DAY)
        return f"{short(self.first + datetime.timedelta(day))} {rest // 60:02}:{rest % 60:02}"


def number_of(row, key, most):
    if not re.fullmatch(r"\d{1,9}", row[key]) or int(row[key]) > most:
        raise Fault(f"{key}: '{row[key]}' is not a number from 0 to {most}")
    return int(row[key])


def minute_of(row, key):
    """The minutes of a time of day such as 09:55, 0955 or 00:30+1, or of a number of minutes."""
    found = TIME.fullmatch(row[key])
    if not found or int(found[1]) > 23 or int(found[2]) > 59:
        raise Fault(f"{key}: '{row[key]}' is not a time of day such as 09:55 or 00:30+1")
    return int(found[1]) * 60 + int(found[2]) + DAY * int(found[3] or 0)


def flight_of(row, key, days):
    """A flight with its day of the plan, or None."""
    word, day = row[key], row[key + "day"]
    if not word and not day:
        return None
    found = FLIGHT.fullmatch(word)
    if not found:
        raise Fault(f"{key}: '{word}' is not a flight such as LH123")
    return found[1] + found[2] + found[3], number_of(row, key + "day", days)


def record_of(row, frame, minute):
    """The record of a row, whose times this function reads."""
    if not NAME.fullmatch(row["name"]):
        raise Fault(f"name: '{row['name']}' is not 1 to 12 capitals, digits or -")
    if row["type"] not in frame.least:
        raise Fault(f"type: the plan has no type '{row['type']}'")
    on, off = minute(row, "on"), minute(row, "off")
    flights = [flight_of(row, key, frame.days) for key in ("arr", "dep")]
    return Record(row["name"], row["type"], number_of(row, "class", 9), on, off, *flights)


def checked(record, frame):
    """The record, if it lies in the plan."""
    end = frame.days * DAY
    if not 0 <= record.on < end or record.off > end:
        raise Fault(f"on, off: {record.on} to {record.off} does not lie in the plan, which has the minutes 0 to {end}")
    if record.off - record.on < frame.least[record.type]:
        raise Fault(f"off: {record.type} has to stay for {frame.least[record.type]} minutes at least, and not {record.off - record.on}")
    return record


def on_date(record, frame, date):
    """The record of a pattern on a date. Its name gets the day of the month, which no other date of a plan has."""
    if len(record.name) > 9:
        raise Fault(f"name: '{record.name}' has more than 9 characters, and -{date:%d} is put behind it")
    day = (date - frame.first).days
    flights = [it and (it[0], it[1] + day) for it in (record.arr, record.dep)]
    return checked(Record(f"{record.name}-{date:%d}", record.type, record.rank, record.on + DAY * day, record.off + DAY * day, *flights), frame)


def tried(make):
    """What this makes, or the fault in it."""
    try:
        return make()
    except Fault as why:
        return why


def period_of(row, frame, period):
    """The days of operation of a row: its own, or those of the whole file."""
    if any(row.get(key) for key in PATTERN):
        return frame.period(row["days"] or "1234567", row["from"], row["to"])
    return period


def names_of(row, frame, period):
    """The names that the visits of a row have, as far as can be told: those of every date, if it has a pattern."""
    name = row["name"] or ""
    is_pattern = period is not None or any(row.get(key) for key in PATTERN)
    return {f"{name}-{(frame.first + datetime.timedelta(day)):%d}" for day in range(frame.days)} if is_pattern else {name}


def expanded(row, frame, period):
    """The records of a row, or a fault in the place of one: one, or with days of operation one for each of its dates."""
    period = period_of(row, frame, period)
    if period is None:
        return [checked(record_of(row, frame, lambda it, key: number_of(it, key, frame.days * DAY)), frame)]
    pattern = record_of(row, frame, minute_of)
    count = (period.end - period.begin).days + 1
    dates = [period.begin + datetime.timedelta(later) for later in range(count)]
    return [tried(lambda: on_date(pattern, frame, date)) for date in dates if date.isoweekday() in period.weekdays]


class Season:
    """The records of a season file; what is wrong with others, each with its line; and the names of the visits that those may be about."""

    def __init__(self, path, frame, period=None):
        self.records, self.faults, self.spoiled, self.lines = [], [], set(), {}
        with open(path, newline="", encoding="utf-8-sig") as file:
            rows = csv.DictReader(file, strict=True)
            if rows.fieldnames not in (HEADER, HEADER + PATTERN):
                raise Fault(f"{path}:1: the header is not {','.join(HEADER)}, perhaps with ,{','.join(PATTERN)} behind it")
            for row in rows:
                place = f"{path}:{rows.line_num}"
                if None in row or None in row.values():
                    self.spoil(row, frame, period, f"{place}: it does not have {len(rows.fieldnames)} fields")
                    continue
                made = tried(lambda: expanded(row, frame, period))
                for it in [made] if isinstance(made, Fault) else made:
                    it = self.twice(it, rows.line_num)
                    if isinstance(it, Fault):
                        self.spoil(row, frame, period, f"{place}: {it}")
                    else:
                        self.records.append(it)
        self.faults = list(dict.fromkeys(self.faults))

    def twice(self, record, line):
        """The record, or a fault in its place if another line has its name."""
        if isinstance(record, Record) and self.lines.setdefault(record.name, line) != line:
            return Fault(f"name: '{record.name}' is in line {self.lines[record.name]} too")
        return record

    def spoil(self, row, frame, period, fault):
        self.faults.append(fault)
        self.spoiled |= names_of(row, frame, period)


def season_of(records):
    """The text of a season file in minutes of the plan, as `apron import` reads it."""
    lines = [",".join(HEADER)]
    for it in records:
        flights = [word for flight in (it.arr, it.dep) for word in (flight or ("", ""))]
        lines.append(",".join(map(str, (it.name, it.type, it.rank, it.on, it.off, *flights))))
    return "\n".join(lines) + "\n"
