"""A day that is over: its visits came and went when their stories say. The times are told before stands are given, and reported after it, so
that nobody loses a stand and no alarm comes on a day that nobody plays."""

import time

from stories import story_of

PAUSE = 0.02
DESK, TAXI_IN = "RAMP", 9


def tell_past(link, writer, seed, numbers, place):
    """Tells the times of visits that have no stands yet, has them placed, and reports each on and off block; one without a stand did not come."""
    for number in sorted(numbers):
        tell_times(link, writer, link.read(f"/visits/{number}"), seed)
    place(numbers.__contains__)
    for number in sorted(numbers):
        part = link.read(f"/visits/{number}")["parts"][0]
        if part["stand"] is None:
            link.post("/cancels", {"visit": number})
        else:
            link.post("/reports", {"visit": number, "on": {"part": 1, "stand": part["stand"], "minute": part["from"]}}, DESK)
            link.post("/reports", {"visit": number, "off": {"minute": part["to"]}}, DESK)
        time.sleep(2 * PAUSE)


def tell_times(link, writer, visit, seed):
    story = story_of(seed, visit)
    if visit["arr"] is not None and story.arrival_told is not None:
        link.post("/mvt", writer.lands_at(visit, story, visit["on"] + story.comes_late - TAXI_IN), DESK)
        time.sleep(PAUSE)
    if visit["dep"] is not None and story.leaves_late > 6:
        link.post("/mvt", writer.leaves_at(visit, story, visit["off"] + story.leaves_late), DESK)
        time.sleep(PAUSE)
