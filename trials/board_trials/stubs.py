"""Servers that only tell a plan: with names that are tags, and with as many stands and visits as one likes."""

import http.server
import json
import random
import threading

from board_trials.plan import DAY

STANDS = 400
TAGS = ['<IMG SRC=X ONERROR="window.hacked=1">', '"><script>window.hacked=1</script>', "'&lt;b&gt;\"`${1}"]


class Stub(http.server.ThreadingHTTPServer):
    """Its visits are those of one day; change() makes a new version."""
    daemon_threads = True

    def __init__(self, airport, visits):
        super().__init__(("127.0.0.1", 0), Replies)
        self.airport, self.visits, self.version = airport, visits, 1
        self.bodies = {}
        self.change([])
        threading.Thread(target=self.serve_forever, args=(0.05,), daemon=True).start()

    def change(self, visits):
        """Puts visits in the place of those with their numbers."""
        changed = {it["visit"]: it for it in visits}
        self.visits = [changed.get(it["visit"], it) for it in self.visits]
        self.version += 1
        told = {"version": self.version}
        bodies = {"/version": told, "/airport": {**self.airport, **told}}
        for day in range(1, self.airport["days"] + 1):
            held = [it for it in self.visits if it["parts"][0]["from"] < day * 1440 and it["parts"][0]["to"] + 10 > (day - 1) * 1440]
            bodies[f"/day/{day}"] = {**told, "visits": held}
        self.bodies = {target: json.dumps(body).encode() for target, body in bodies.items()}

    @property
    def port(self):
        return self.server_address[1]

    def end(self):
        self.shutdown()
        self.server_close()


class Replies(http.server.BaseHTTPRequestHandler):
    protocol_version = "HTTP/1.1"
    disable_nagle_algorithm = True
    wbufsize = -1

    def do_GET(self):
        body = self.server.bodies.get(self.path)
        self.send_response(404 if body is None else 200)
        body = body or b'{"error":"route"}'
        for name, value in (("Content-Type", "application/json"), ("X-Version", str(self.server.version)), ("Content-Length", str(len(body)))):
            self.send_header(name, value)
        self.end_headers()
        self.wfile.write(body)

    def log_message(self, *_):
        pass


def airport_of(stands, types, frontages):
    return {"days": DAY, "first_day": "2026-07-01", "frontages": frontages, "pairs": [], "stands": stands, "station": "XYZ", "taxi_in": 5, "tow": 20, "types": types}


def type_of(name, span, letter):
    return {"fold": 0, "least": 30, "letter": letter, "name": name, "parked": span, "span": span}


def visit_of(number, name, kind, stand, begin, end, state="expected", **more):
    part = {"actual": False, "bump": None, "from": begin, "stand": stand, "to": end}
    return {"arr": None, "class": 3, "dep": None, "edited": 0, "name": name, "off": end, "on": begin, "parts": [{**part, **more}], "state": state, "type": kind, "visit": number}


def crowd_of(visits):
    """An airport of 400 stands, and so many visits of a day on them, of which one in 25 waits."""
    frontages = [{"name": f"F{number}", "objects": [0]} for number in range(20)]
    stands = [{"buffer": 10, "centre": 4000 + 4100 * (place % 20), "frontage": f"F{place // 20}", "half_of": None, "letter": "C", "name": f"{place // 20 + 1}{'ABCDEFGHJKLMNPQRSTUV'[place % 20]}"}
              for place in range(STANDS)]
    draws, told = random.Random(3), []
    gap = 1380 // -(-visits // STANDS)
    for number in range(1, visits + 1):
        begin = (DAY - 1) * 1440 + 10 + gap * ((number - 1) // STANDS) + draws.randrange(gap // 6)
        stand = None if number % 25 == 0 else stands[number % STANDS]["name"]
        told.append(visit_of(number, f"V{number}", draws.choice(["A320", "B738", "E190"]), stand, begin, begin + draws.randrange(45, max(60, gap * 2 // 3))))
    return airport_of(stands, [type_of("A320", 3580, "C"), type_of("B738", 3579, "C"), type_of("E190", 2872, "C")], frontages), told


def tagged():
    """An airport whose names are tags and quotes, with visits that are named so too, one that lost its stand, and two in each other's way."""
    begin = (DAY - 1) * 1440 + 640
    stands = [{"buffer": 10, "centre": 5000 * place, "frontage": TAGS[0], "half_of": None, "letter": "C", "name": name} for place, name in enumerate(TAGS, 1)]
    visits = [visit_of(number, name, TAGS[1], name, begin - 20, begin + 60) for number, name in enumerate(TAGS, 1)]
    bump = {"blocker": {"part": 1, "visit": 1}, "entry": 1, "minute": begin, "rule": "same", "stand": TAGS[1]}
    visits.append(visit_of(4, TAGS[2], TAGS[1], None, begin + 10, begin + 90, bump=bump))
    visits += [visit_of(number, TAGS[0], TAGS[1], TAGS[1], begin - 20, begin + 60, state="onblock", actual=True) for number in (5, 6)]
    return {**airport_of(stands, [type_of(TAGS[1], 3580, "C")], [{"name": TAGS[0], "objects": []}]), "station": TAGS[0]}, visits
