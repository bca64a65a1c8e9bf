"""The visits of the demonstration: the summer day of examples/large, on each of three days, at that airport with another first day."""

import csv
import os
import re
import time

from clock import MINUTES_OF_DAY

LARGE = os.path.normpath(os.path.join(os.path.dirname(os.path.abspath(__file__)), "..", "large"))
# The day of its plan on which the summer day of the example is.
SUMMER_DAY = 2


def write_airport(folder, clock):
    """The airport file and the type file in the folder. The first day is the day before the clock's."""
    files = [os.path.join(folder, name) for name in ("airport.toml", "types.csv")]
    for path in files:
        with open(os.path.join(LARGE, os.path.basename(path))) as example, open(path, "w") as file:
            day = time.strftime("%Y-%m-%d", clock.date_of(1))
            file.write(re.sub(r'(?m)^first_day = ".*"$', f'first_day = "{day}"', example.read()))
    return files


def visits_of(day, clock):
    """The visits of a day as they are added, in the order of the example."""
    with open(os.path.join(LARGE, "season.csv"), newline="") as season:
        records = list(csv.DictReader(season))
    shift, date = day - SUMMER_DAY, time.strftime("%b%d", clock.date_of(day)).upper()
    return [visit_of(record, shift, f"{date}-{number:03}") for number, record in enumerate(records, 1)]


def visit_of(record, shift, name):
    """The visit of a record, so many days later and under this name."""
    minutes = {key: int(record[key]) + shift * MINUTES_OF_DAY for key in ("on", "off")}
    flights = {key: flight_of(record[key], record[f"{key}day"], shift) for key in ("arr", "dep")}
    return {"name": name, "type": record["type"], "class": int(record["class"]), **minutes, **flights}


def flight_of(flight, day, shift):
    return {"flight": flight, "day": int(day) + shift} if flight else None


def write_season(path, visits):
    """A season file of visits."""
    with open(path, "w", newline="") as file:
        rows = csv.writer(file, lineterminator="\n")
        rows.writerow(["name", "type", "class", "on", "off", "arr", "arrday", "dep", "depday"])
        for it in visits:
            flights = [part for key in ("arr", "dep") for part in ((it[key]["flight"], it[key]["day"]) if it[key] else ("", ""))]
            rows.writerow([it["name"], it["type"], it["class"], it["on"], it["off"], *flights])
