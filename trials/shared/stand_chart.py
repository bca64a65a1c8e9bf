"""The chart of a day, worked out again and apart from the program, as docs/reference/chart.md tells it: of any visits as replies tell them, with
parts that are on block and parts that lost their stands."""

import datetime
from typing import NamedTuple

from stand_planning.rules import DAY

QUARTER, QUARTERS = 15, 96


def time_of(minute):
    return f"{minute // DAY + 1}/{minute % DAY // 60:02}{minute % 60:02}"


class Held(NamedTuple):
    """A part that holds a stand, with the end of its buffer."""
    stand: int
    begin: int
    visit: int
    part: int
    to: int
    end: int
    actual: bool
    type: str

    def cell(self):
        return "#" if self.actual else "="


class Chart:
    """The chart of a day, of all visits of a plan as replies tell them: facts and displacements too."""

    def __init__(self, airport, day, visits):
        self.airport, self.day = airport, day
        self.begins, self.ends = (day - 1) * DAY, day * DAY
        self.held, waiting = [], []
        for visit in visits:
            for number, part in enumerate(visit["parts"], 1):
                if part["stand"] is not None:
                    self.hold(visit, number, part)
                elif visit["state"] not in ("gone", "cancelled") and part["from"] < self.ends and part["to"] > self.begins:
                    rank = visit["class"], visit["on"], visit["visit"], number
                    waiting.append((rank, f"{visit['visit']}.{number} {visit['type']} {self.times(part)}{self.bumped(part['bump'])}"))
        self.held.sort()
        self.waiting = [line for _, line in sorted(waiting)]

    def hold(self, visit, number, part):
        stand = self.airport.stand_of[part["stand"]]
        end = part["to"] + self.airport.stands[stand]["buffer"]
        if part["from"] < self.ends and end > self.begins:
            self.held.append(Held(stand, part["from"], visit["visit"], number, part["to"], end, part["actual"], visit["type"]))

    @staticmethod
    def times(part):
        return f"{time_of(part['from'])}-{time_of(part['to'])}"

    @staticmethod
    def bumped(bump):
        if bump is None:
            return ""
        blocker = f"{bump['blocker']['visit']}.{bump['blocker']['part']}"
        return f" bumped by {blocker} in entry {bump['entry']} at {time_of(bump['minute'])} {bump['rule']}"

    def cells(self, stand):
        """A quarter of an hour each: what is there goes before what is planned."""
        cells = ["."] * QUARTERS
        for it in sorted((it for it in self.held if it.stand == stand), key=lambda it: it.actual):
            for quarter in range(QUARTERS):
                begins = self.begins + quarter * QUARTER
                if it.begin < begins + QUARTER and it.end > begins:
                    cells[quarter] = it.cell()
        return "".join(cells)

    def alarms(self):
        """The first minute of the day at which two parts that are there clash."""
        facts, found = [it for it in self.held if it.actual], []
        for place, it in enumerate(facts):
            for other in facts[:place]:
                if it.visit != other.visit:
                    met = self.airport.meeting(self.slot(it), self.slot(other), self.begins, self.ends)
                    if met is not None:
                        found.append((met[0], *sorted([(it.visit, it.part), (other.visit, other.part)]), met[1]))
        return ["%s %d.%d %d.%d %s" % (time_of(minute), *one, *two, rule) for minute, one, two, rule in sorted(found)]

    def slot(self, it):
        return self.airport.type_of[it.type], it.stand, it.begin, it.end

    def text(self, version):
        """Its bytes, of a plan of this version."""
        whole = self.airport.described["airport"]
        date = datetime.date.fromisoformat(whole["first_day"]) + datetime.timedelta(self.day - 1)
        names = [it["name"] for it in self.airport.stands]
        lines = [f"STAND CHART {whole['station']} {date} VERSION {version}"]
        lines += [f"{name:6} {self.cells(stand)}" for stand, name in enumerate(names)]
        lines.append("PARTS")
        for it in self.held:
            times, kind = f"{time_of(it.begin)}-{time_of(it.to)}", "actual" if it.actual else "planned"
            lines.append(f"{names[it.stand]:6} {it.visit}.{it.part} {it.type} {times} {kind}")
        lines += ["UNPLACED", *self.waiting, "ALARMS", *self.alarms(), "END"]
        return "".join(line + "\n" for line in lines).encode()
