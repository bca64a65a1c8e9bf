"""Plays the day at a server: says what is due at a minute of each visit's story, by messages and reports, and looks at the plan for the rest.
What a person changes meanwhile counts: a visit stands where the plan has it, and comes when the plan expects it."""

from clock import MINUTES_OF_DAY
from stories import story_of

# How many minutes an aircraft is unallocated that is not yet clear, or until it is given one, and then goes elsewhere.
CLEAR, GIVEN, DIVERTED = 25, 12, 90
# After so many minutes a report on a stand beside the right one is fixed; and something that was refused is tried again.
MENDED, AGAIN = 12, 10
OPS, RAMP, TOWER = "OPS", "RAMP", "TOWER"


class Play:
    """One player, for one thread. It has a link of its own."""

    def __init__(self, server, link, writer, seed):
        self.server, self.link, self.writer, self.seed = server, link, writer, seed
        airport = link.read("/airport")
        self.taxi_in, self.days = airport["taxi_in"], airport["days"]
        self.stands = {it["name"]: it for it in airport["stands"]}
        self.least = {it["name"]: it["least"] for it in airport["types"]}
        self.told, self.again, self.stories, self.leaves, self.mends, self.cleared = set(), {}, {}, {}, {}, {}
        self.version, self.visits = None, []

    def story(self, visit):
        if visit["name"] not in self.stories:
            self.stories[visit["name"]] = story_of(self.seed, visit)
        return self.stories[visit["name"]]

    def look(self, now):
        """Reads the visits of the day and those of the next hours, if the plan has changed."""
        days = sorted({int(minute) // MINUTES_OF_DAY + 1 for minute in (now, now + 180)})
        days = [day for day in days if day <= self.days]
        version = self.link.read("/version")["version"], days
        if version != self.version:
            found = {it["visit"]: it for day in days for it in self.link.read(f"/day/{day}")["visits"]}
            self.version, self.visits = version, sorted(found.values(), key=lambda it: (it["on"], it["visit"]))

    def step(self, now):
        """Says all that is due."""
        self.look(now)
        self.held = {part["stand"]: it["visit"] for it in self.visits if it["state"] == "onblock" for part in it["parts"] if part["actual"]}
        for visit in self.visits:
            if self.again.get(visit["visit"], now) <= now:
                if visit["state"] == "expected":
                    self.expected(visit, self.story(visit), now)
                elif visit["state"] == "onblock":
                    self.standing(visit, self.story(visit), now)

    def say(self, visit, kind, now, target, value, desk):
        """Sends one thing about a visit. If it is refused, it is tried again later."""
        code, _ = self.link.post(target, value, desk)
        if code == 200:
            self.told.add((visit["visit"], kind))
        else:
            self.again[visit["visit"]] = now + AGAIN
        return code == 200

    def report(self, visit, kind, now, value, desk=RAMP):
        return self.say(visit, kind, now, "/reports", {"visit": visit["visit"], **value}, desk)

    def is_told(self, visit, kind):
        return (visit["visit"], kind) in self.told

    # ---- arrivals

    def comes(self, visit, story):
        """The minute on block: that of the story, unless someone else has told another."""
        comes, expected = visit["on"] + story.comes_late, visit["parts"][0]["from"]
        return comes if expected in (visit["on"], int(comes)) else expected

    def expected(self, visit, story, now):
        comes = self.comes(visit, story)
        touchdown = int(comes) - self.taxi_in
        tells = story.arrival_told is not None and now >= visit["on"] - story.arrival_told and now < touchdown
        if visit["arr"] is not None and tells and not self.is_told(visit, "expected"):
            self.say(visit, "expected", now, "/mvt", self.writer.lands_at(visit, story, touchdown), OPS)
        elif visit["arr"] is not None and story.is_by_message and touchdown <= now < comes and not self.is_told(visit, "landed"):
            self.say(visit, "landed", now, "/mvt", self.writer.landed(visit, story, touchdown), TOWER)
        elif now >= comes:
            self.arrive(visit, story, comes, now)

    def arrive(self, visit, story, comes, now):
        stand = visit["parts"][0]["stand"]
        if stand is None:
            self.without_stand(visit, comes, now)
        elif story.is_astray or now > comes + CLEAR or self.is_clear(stand):
            minute = int(max(comes, max((self.cleared.get(it, 0) for it in self.family(stand)), default=0) if not story.is_astray else 0))
            self.come_on_block(visit, story, stand, minute, now)

    def family(self, stand):
        """The stand, its whole and its halves."""
        whole = self.stands[stand]["half_of"]
        return [stand, *([whole] if whole else []), *(it["name"] for it in self.stands.values() if it["half_of"] == stand)]

    def is_clear(self, stand):
        return not any(it in self.held for it in self.family(stand))

    def come_on_block(self, visit, story, stand, minute, now):
        astray = self.beside(stand) if story.is_astray else None
        if astray is not None:
            self.mends[visit["visit"]] = stand, minute + MENDED
        if visit["arr"] is not None and story.is_by_message and astray is None:
            text = self.writer.on_block(visit, story, minute - self.taxi_in, minute)
            done = self.say(visit, "on", now, "/mvt", text, OPS)
        else:
            done = self.report(visit, "on", now, {"on": {"part": 1, "stand": astray or stand, "minute": minute}})
        if done:
            self.held[astray or stand] = visit["visit"]

    def beside(self, stand):
        """The stand beside it on its frontage that takes the same aircraft, one that is occupied if there is one."""
        it = self.stands[stand]
        near = [other for other in self.stands.values() if other["frontage"] == it["frontage"] and other["letter"] == it["letter"] and other is not it]
        near.sort(key=lambda other: (self.is_clear(other["name"]), abs(other["centre"] - it["centre"])))
        return near[0]["name"] if near else None

    def without_stand(self, visit, comes, now):
        """Waits for a person to give it a stand, then takes one that is free; if there is none for long, it goes elsewhere."""
        if now > comes + DIVERTED:
            self.say(visit, "diverted", now, "/cancels", {"visit": visit["visit"]}, OPS)
        elif now > comes + GIVEN:
            self.again[visit["visit"]] = now + AGAIN / 2
            self.server.place(self.link, lambda number: number == visit["visit"])

    # ---- what stands

    def standing(self, visit, story, now):
        number, parts = visit["visit"], visit["parts"]
        if number in self.mends:
            stand, minute = self.mends[number]
            if now >= minute and self.report(visit, "mended", now, {"on": {"part": 1, "stand": stand, "minute": parts[0]["from"]}}):
                del self.mends[number]
            return
        tow = next((place for place, part in enumerate(parts, 1) if not part["actual"]), None)
        if tow is not None:
            part = parts[tow - 1]
            if part["stand"] is not None and now >= part["from"]:
                self.report(visit, f"tow{tow}", now, {"on": {"part": tow, "stand": part["stand"], "minute": int(part["from"])}})
            return
        self.depart(visit, story, now)

    def depart(self, visit, story, now):
        number, ends = visit["visit"], visit["parts"][-1]["to"]
        leaves, told = self.leaves.setdefault(number, (max(ends + story.leaves_late, visit["parts"][-1]["from"] + 1), ends))
        if ends not in (told, int(leaves)):
            leaves = float(ends)
        tells = story.departure_told is not None and now >= told - story.departure_told and now < leaves
        if visit["dep"] is not None and tells and not self.is_told(visit, "leaves"):
            self.say(visit, "leaves", now, "/mvt", self.writer.leaves_at(visit, story, leaves), OPS)
        elif now >= leaves:
            minute = int(leaves)
            if visit["dep"] is not None and story.is_by_message:
                done = self.say(visit, "off", now, "/mvt", self.writer.off_block(visit, story, minute), OPS)
            else:
                done = self.report(visit, "off", now, {"off": {"minute": minute}})
            if done:
                stand = visit["parts"][-1]["stand"]
                self.held.pop(stand, None)
                self.cleared[stand] = minute + 1

    # ---- what is played at once

    def catch_up(self, begins, ends, step, most_lost):
        """Plays from one minute to another, and gives new stands to what lost its own, but at the end leaves so many of those to a person."""
        now = begins
        while now < ends:
            now = min(now + step, ends)
            self.step(now)
            lost = [it for it in self.visits if it["state"] == "expected" and it["parts"][0]["stand"] is None]
            later = [it["visit"] for it in lost if it["parts"][0]["from"] > ends + 40]
            places = {it["visit"] for it in lost} - set(later[:most_lost])
            if places:
                self.server.place(self.link, places.__contains__)
