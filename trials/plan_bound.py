"""How many parts any plan of an empty day has to leave, for trials/plan-trials --bound: a whole model of the day, whose linear relaxation
HiGHS solves (the Debian package python3-scipy). A part may be on fractions of stands, and wing tips that fold count as folded, so that
what it finds is a bound and no plan: no plan leaves less."""

import csv
import io
import math
import os
import tempfile
import time

import numpy
import scipy.optimize
import scipy.sparse

from shared import plan_days, served, stand_plan


class Model:
    """A day's parts, and columns: a part on one of a group of stands. Stands that are alike, and that no other stand excludes, are a group."""

    def __init__(self, rules, visits):
        self.rules, self.parts = rules, visits
        # Which stands exclude each other with the widest aircraft that fit them, and groups of stands that exclude no other ones.
        widest = [max((type.span for place, type in enumerate(rules.types) if rules.unfit(stand, place) is None), default=1)
                  for stand in range(len(rules.stands))]
        self.near = [[it for it in rules.near[stand] if rules.breaks(stand, widest[stand], it, widest[it])] for stand in range(len(rules.stands))]
        alike = {}
        for stand in range(len(rules.stands)):
            fits = tuple(rules.unfit(stand, type) is None for type in range(len(rules.types)))
            key = (fits, rules.stands[stand]["buffer"]) if self.near[stand] == [stand] else stand
            alike.setdefault(key, []).append(stand)
        self.groups = list(alike.values())
        self.columns = [(part, group) for part, (type, *_) in enumerate(visits) for group, stands in enumerate(self.groups)
                        if rules.unfit(stands[0], type) is None]
        self.on = {}
        for column, (_, group) in enumerate(self.columns):
            self.on.setdefault(group, []).append(column)

    def times(self, column):
        part, group = self.columns[column]
        type, begin, end, _ = self.parts[part]
        return type, begin, end + self.rules.stands[self.groups[group][0]]["buffer"]

    def rows(self):
        """Sets of columns, and how many of each a plan can have: a part has one stand, a group has so many, and two stands that exclude each
        other with aircraft of some spans have one at a minute."""
        of_part = {}
        for column, (part, _) in enumerate(self.columns):
            of_part.setdefault(part, []).append(column)
        yield from ((tuple(columns), 1) for columns in of_part.values())
        for group, stands in enumerate(self.groups):
            yield from ((row, len(stands)) for row in self.at_once(self.on.get(group, ())))
            for other in range(group + 1, len(self.groups)):
                if self.groups[other][0] in self.near[stands[0]]:
                    yield from ((row, 1) for row in self.exclusions(group, other))

    def at_once(self, columns):
        """The greatest sets of these columns that share a minute."""
        found, begins = set(), sorted({self.times(column)[1] for column in columns})
        for minute in begins:
            found.add(frozenset(it for it in columns if self.times(it)[1] <= minute < self.times(it)[2]))
        return [tuple(it) for it in found if len(it) > 1 and not any(it < other for other in found)]

    def exclusions(self, group, other):
        """Of two stands that exclude each other with aircraft of at least some spans: the columns of such aircraft that share a minute."""
        stand, near, least = self.groups[group][0], self.groups[other][0], {}
        span_of = {it: self.rules.types[self.times(it)[0]].parked for it in (*self.on.get(group, ()), *self.on.get(other, ()))}
        for span in sorted({span_of[it] for it in self.on.get(group, ())}, reverse=True):
            least[tuple(it for it in self.on.get(other, ()) if self.rules.breaks(stand, span, near, span_of[it]))] = span
        found = set()
        for hit, span in least.items():
            if hit:
                found.update(self.at_once([it for it in self.on[group] if span_of[it] >= span] + list(hit)))
        return found


def day_of(airport, visits, seed):
    """The rules of an airport, and the visits of a day as type, begin, end and priority."""
    folder = os.path.join(served.EXAMPLES, "large")
    with tempfile.TemporaryDirectory() as room:
        path = os.path.join(folder, "airport.toml")
        if airport == "narrow":
            path = os.path.join(room, "airport.toml")
            with open(path, "w") as file:
                file.write(plan_days.narrow_airport())
        rules = stand_plan.Airport(path, os.path.join(folder, "types.csv"))
    rows = csv.DictReader(io.StringIO(plan_days.season(rules, visits, seed)))
    return rules, [(rules.type_of[it["type"]], int(it["on"]), int(it["off"]), int(it["class"])) for it in rows]


def bounds(seconds, airport, visits, seed):
    """A row of results: the least number and the least weight that is left, or None where the model did not end in time."""
    began = time.process_time()
    rules, parts = day_of(airport, visits, seed)
    model = Model(rules, parts)
    rows = list(model.rows())
    at = [(row, column) for row, (columns, _) in enumerate(rows) for column in columns]
    matrix = scipy.sparse.csr_matrix((numpy.ones(len(at)), ([it[0] for it in at], [it[1] for it in at])), (len(rows), len(model.columns)))
    most = numpy.array([count for _, count in rows])
    result = {"airport": airport, "visits": visits, "seed": seed, "state": "bound", "method": "", "limit": None}
    for name, weight in (("least", lambda of_class: 1), ("weight", lambda of_class: 2 ** (9 - of_class))):
        worth = numpy.array([weight(parts[part][3]) for part, _ in model.columns])
        whole = sum(weight(of_class) for *_, of_class in parts)
        told = scipy.optimize.linprog(-worth, A_ub=matrix, b_ub=most, bounds=(0, 1), method="highs-ipm", options={"time_limit": seconds})
        result[name] = max(0, math.ceil(whole + told.fun - 1e-4)) if told.status == 0 else None
    return {**result, "columns": len(model.columns), "rows": len(rows), "seconds": round(time.process_time() - began, 1)}
