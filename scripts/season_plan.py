"""How a season file differs from the plan of a running server, and the requests by which the plan follows it. It needs Python 3, and
examples/client/plan_server.py."""

import base64
import collections
import hashlib
import http.client
import json
import os
import ssl
import time

from season_records import DAY

SENDER = "SEASON"
# A station that is not the airport's: from there a message says when a touchdown is expected.
ELSEWHERE, NOT_HERE = "ZZZ", "ZZY"
# How often a request is sent that got no reply, or one that says to try again, and the seconds between.
TRIES, BETWEEN = 5, 1
LATER = {502, 503, 504, 507}

# A difference: the name of the visit in the file, its number in the plan or None, what differs in words, the record, the name under which
# it is added, and the minutes that messages have to say.
Difference = collections.namedtuple("Difference", "kind name number what record made on off")


class RunningPlan:
    """The plan of a running server: its airport, and its visits by name."""

    def __init__(self, server, user, cacert):
        self.server, self.fields = server, {"X-Desk": SENDER}
        if user:
            self.fields["Authorization"] = "Basic " + base64.b64encode(user.encode()).decode()
        self.link = server.connection()
        if cacert:
            self.link = http.client.HTTPSConnection(server.place, timeout=60, context=ssl.create_default_context(cafile=cacert))
        self.airport = json.loads(self.got("/airport"))
        self.visits = {}
        while (body := self.got(f"/visits/{len(self.visits) + 1}")) is not None:
            visit = json.loads(body)
            self.visits[visit["name"]] = visit

    def ask(self, method, target, body=None):
        """The status and the body of a reply. What got none is sent again: a visit and a cancel are taken once, and a message that says the
        same time again leaves its visit as it is."""
        for last in range(TRIES - 1, -1, -1):
            try:
                self.link.request(method, self.server.target(target), body, self.fields)
                reply = self.link.getresponse()
                status, text = reply.status, reply.read()
                if status not in LATER or not last:
                    return status, text
            except (OSError, http.client.HTTPException):
                self.link.close()
                if not last:
                    raise
            time.sleep(BETWEEN)

    def got(self, target):
        status, body = self.ask("GET", target)
        if status == 404 and target.startswith("/visits/"):
            return None
        if status != 200:
            raise OSError(f"{target} got {status}: {body.decode(errors='replace')[:200]}")
        return body

    def flight_is_of(self, key, flight):
        """The number of the visit that is neither gone nor cancelled that a message about this flight means."""
        wanted = {"flight": flight[0], "day": flight[1]}
        live = [it["visit"] for it in self.visits.values() if it[key] == wanted and it["state"] in ("expected", "onblock")]
        return min(live, default=None)


def stem_of(name):
    """The beginning of made names: the name, or its beginning and a sum of it."""
    return name if len(name) <= 8 else name[:4] + base64.b32encode(hashlib.sha256(name.encode()).digest()).decode()[:4]


def chain_of(name, plan, named):
    """The visits of the plan that stand for a name of the file, the first one under that name and later ones under made names; and the next
    made name."""
    visits, count = [plan.visits.get(name)], 2
    while (made := f"{stem_of(name)}-R{count}") in plan.visits or made in named:
        if made in plan.visits and made not in named:
            visits.append(plan.visits[made])
        count += 1
    return [it for it in visits if it], made


def flight_in(visit, key):
    return visit[key] and (visit[key]["flight"], visit[key]["day"])


class Comparison:
    """The differences of one record."""

    def __init__(self, record, plan, sent, frame, named):
        self.record, self.plan, self.sent, self.frame = record, plan, sent, frame
        self.chain, self.made = chain_of(record.name, plan, named)
        self.visit = self.chain[-1] if self.chain else None

    def difference(self, kind, what, made=None, on=None, off=None):
        number = self.visit["visit"] if self.visit else None
        return Difference(kind, self.record.name, number, what, self.record, made, on, off)

    def shown(self):
        it, frame = self.record, self.frame
        flights = "/".join(flight[0] if flight else "-" for flight in (it.arr, it.dep))
        return f"{it.type} {flights} {frame.shown(it.on)} to {frame.shown(it.off)}"

    def other_data(self):
        """In words, what no message can change."""
        visit, it = self.visit, self.record
        pairs = [("type", visit["type"], it.type), ("class", visit["class"], it.rank)]
        pairs += [(key, flight_in(visit, key), flight) for key, flight in (("arr", it.arr), ("dep", it.dep))]
        return ", ".join(f"{key} {said(was)} is {said(now)} in the file" for key, was, now in pairs if was != now)

    def times(self):
        """The minutes on and off block that the plan has not been told, or None for each that it has."""
        said_on, said_off = self.sent.last_said(self.visit)
        parts = self.visit["parts"]
        on = self.record.on if self.record.on not in (said_on, parts[0]["from"]) else None
        off = self.record.off if self.record.off not in (said_off, parts[-1]["to"]) else None
        return on, off

    def unsayable(self, on, off):
        """Why messages can't say these minutes, or nothing."""
        for key, minute, flight in (("arr", on, self.record.arr), ("dep", off, self.record.dep)):
            if minute is None:
                continue
            if flight is None:
                return f"it has no flight {key} that a message could be about"
            number = self.plan.flight_is_of(key, flight)
            if number != self.visit["visit"]:
                return f"a message about {flight[0]} would be about visit {number}"
        if on is not None and on < self.plan.airport["taxi_in"]:
            return "the touchdown would be before the plan"
        return ""

    def of_times(self):
        """The difference of the times, or None."""
        on, off = self.times()
        if on is None and off is None:
            return None
        shown, parts = self.frame.shown, self.visit["parts"]
        what = ", ".join(f"{word} {shown(was)} is {shown(now)} in the file"
                         for word, was, now in (("on", parts[0]["from"], on), ("off", parts[-1]["to"], off)) if now is not None)
        if self.visit["state"] == "onblock":
            return self.difference("decide", f"it is on block: {what}")
        why = self.unsayable(on, off)
        return self.difference("needs", f"{what}; {why}", self.made) if why else self.difference("times", what, on=on, off=off)

    def found(self):
        """What differs, or None; `needs` is a difference for which the visit would have to be replaced."""
        if self.visit is None:
            return self.difference("new", self.shown(), self.record.name)
        if self.visit["state"] == "cancelled":
            return self.difference("needs", f"it was cancelled, and is in the file: {self.shown()}", self.made)
        other = self.other_data()
        if other and self.visit["state"] == "onblock":
            return self.difference("decide", f"it is on block: {other}")
        if other:
            stands = [part["stand"] for part in self.visit["parts"] if part["stand"]]
            return self.difference("needs", other + (f"; it loses {' and '.join(stands)}" if stands else ""), self.made)
        return self.of_times()


def said(value):
    if isinstance(value, tuple):
        return f"{value[0]} of day {value[1]}"
    return "none" if value is None else str(value)


def is_over(record, visit, now):
    """Whether a visit has left, or its time is over and it is not on block."""
    if visit and visit["state"] in ("gone", "onblock"):
        return visit["state"] == "gone"
    return record.off <= now and (not visit or visit["parts"][-1]["to"] <= now or visit["state"] == "cancelled")


def differences(season, plan, sent, frame, days, now, replace):
    """The differences by their kind, how many records are the same, and how many are over."""
    found = collections.defaultdict(list)
    named = {it.name for it in season.records} | season.spoiled
    stands_for = {visit["name"] for name in season.spoiled for visit in chain_of(name, plan, named)[0]}
    same = past = 0
    for record in season.records:
        it = Comparison(record, plan, sent, frame, named)
        stands_for.update(visit["name"] for visit in it.chain)
        if is_over(record, it.visit, now):
            past += 1
            continue
        difference = it.found()
        if difference is None:
            same += 1
        elif difference.kind == "needs":
            chosen = record.name in replace or "ALL" in replace
            kind = "replace" if chosen else "decide"
            what = f"{difference.what}; " + ("as" if chosen else f"--replace {record.name} adds it as") + f" {difference.made}"
            found[kind].append(difference._replace(kind=kind, what=what))
        else:
            found[difference.kind].append(difference)
    for visit in plan.visits.values():
        if visit["name"] in stands_for or visit["state"] in ("gone", "cancelled") or not days[0] <= visit["on"] // DAY <= days[1]:
            continue
        if visit["parts"][-1]["to"] <= now and visit["state"] == "expected":
            past += 1
        elif visit["arr"] or visit["dep"]:
            difference = missing(visit, frame)
            found[difference.kind].append(difference)
    return found, same, past


def missing(visit, frame):
    """The difference of a visit of the plan that the file does not have."""
    if visit["state"] == "onblock":
        return Difference("decide", visit["name"], visit["visit"], "it is on block, and not in the file", None, None, None, None)
    what = f"{visit['type']} on {frame.shown(visit['on'])} is not in the file"
    return Difference("gone", visit["name"], visit["visit"], what, None, None, None, None)


class Sender:
    """Sends what differs, and keeps in a file what was said of each visit's times: the last line of a name counts."""

    def __init__(self, plan, path, frame):
        self.plan, self.path, self.frame = plan, path, frame
        self.key, self.times = f"{plan.airport['station']} {frame.first}", {}
        if os.path.exists(path):
            with open(path) as lines:
                for line in filter(str.strip, lines):
                    it = json.loads(line)
                    if it["plan"] == self.key:
                        self.times[it["name"]] = it["on"], it["off"]

    def last_said(self, visit):
        """The minutes that were last said of a visit: by a message of ours, or when it was added."""
        return self.times.get(visit["name"], (visit["on"], visit["off"]))

    def keep(self, name, on, off):
        self.times[name] = on, off
        with open(self.path, "a") as file:
            file.write(json.dumps({"plan": self.key, "name": name, "on": on, "off": off}) + "\n")
            file.flush()
            os.fsync(file.fileno())

    def send(self, it):
        """Sends a difference; it gives a line for what was refused."""
        try:
            if it.kind == "new":
                self.add(it)
            elif it.kind == "gone":
                self.cancel(it.number)
            elif it.kind == "replace":
                self.add(it)
                self.cancel(it.number)
            else:
                self.say(it)
        except Refused as why:
            return [f"{it.name}: {why}"]
        return []

    def post(self, target, body, taken=()):
        """The value of the reply; a refusal with one of the words that are taken counts as done."""
        status, text = self.plan.ask("POST", target, body if isinstance(body, bytes) else json.dumps(body, separators=(",", ":")).encode())
        value = json.loads(text) if text.startswith(b"{") else {}
        if status != 200 and value.get("error") not in taken:
            raise Refused(f"{target} got {status} {text.decode(errors='replace')[:100]}")
        return value

    def add(self, it):
        record = it.record
        arr, dep = (flight and {"flight": flight[0], "day": flight[1]} for flight in (record.arr, record.dep))
        self.post("/visits", {"name": it.made, "type": record.type, "class": record.rank, "on": record.on, "off": record.off, "arr": arr, "dep": dep})

    def cancel(self, number):
        visit = next(visit for visit in self.plan.visits.values() if visit["visit"] == number)
        if visit["state"] != "cancelled":
            self.post("/cancels", {"visit": number}, taken={"gone"})

    def say(self, it):
        """Sends the messages that say the new minutes: EA from elsewhere, and then ED from the airport's own station, also if EA has moved
        the end of the visit."""
        station, taxi_in = self.plan.airport["station"], self.plan.airport["taxi_in"]
        visit = self.read(it.number)
        end = visit["parts"][-1]["to"]
        if it.on is not None:
            elsewhere = ELSEWHERE if station != ELSEWHERE else NOT_HERE
            self.message(it, it.record.arr, elsewhere, f"EA{self.day_and_time(it.on - taxi_in)} {station}")
        is_moved = it.record.dep and self.read(it.number)["parts"][-1]["to"] not in (end, it.record.off)
        if it.off is not None or is_moved:
            self.message(it, it.record.dep, station, f"ED{self.day_and_time(it.record.off)}")
        self.keep(visit["name"], it.record.on, it.record.off)

    def read(self, number):
        return json.loads(self.plan.got(f"/visits/{number}"))

    def message(self, it, flight, station, element):
        text = f"MVT\n{flight[0]}/{self.day_and_time((flight[1] - 1) * DAY)[:2]}.{SENDER}.{station}\n{element}\n"
        reply = self.post("/mvt", text.encode())
        if reply["visit"] != it.number:
            raise Refused(f"the message {element} had no effect on it")

    def day_and_time(self, minute):
        """A time of six digits, which begins with the day of the month."""
        shown = self.frame.shown(minute)
        return shown[:2] + shown[-5:].replace(":", "")


class Refused(Exception):
    """What the server said to a request that it did not take."""
