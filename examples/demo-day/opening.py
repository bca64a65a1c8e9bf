"""The first things that happen once the address is printed, whatever the seed: at an hour with traffic a stand is lost within a minute, and an
alarm comes within two."""

# When they happen, in minutes after the beginning, and for how long an aircraft then stands where the next is due.
TOLD_AT, ASTRAY_AT, OVER = 0.4, 1.2, 20


def prepare(play, now):
    """Changes the stories of one visit that stands and of one that is soon due; whether there is such a one of each."""
    play.step(now)
    return prepare_loss(play, now), prepare_alarm(play, now)


def prepare_loss(play, now):
    """An aircraft is expected to leave so late that the next one of its stand, which is due within two hours, loses it."""
    for visit in (it for it in play.visits if it["state"] == "onblock" and it["dep"] is not None):
        part = visit["parts"][-1]
        after = [it["parts"][0]["from"] for it in play.visits if it["state"] == "expected" and it["parts"][0]["stand"] == part["stand"]]
        if after and not play.is_told(visit, "leaves") and part["to"] > now and now + 20 < min(after) < now + 120:
            play.leaves[visit["visit"]] = min(after) + OVER, part["to"]
            play.stories[visit["name"]] = play.story(visit)._replace(departure_told=part["to"] - now - TOLD_AT)
            return True
    return False


def prepare_alarm(play, now):
    """The next aircraft that is due comes early, and is reported on the stand beside its own, on which another one stands."""
    for visit in play.visits:
        stand, due = visit["parts"][0]["stand"], visit["parts"][0]["from"]
        if visit["state"] == "expected" and stand is not None and due == visit["on"] and now + 2 < due < now + 60 and play.is_clear(stand):
            beside = play.beside(stand)
            if beside is not None and not play.is_clear(beside):
                changed = {"comes_late": now + ASTRAY_AT - due, "arrival_told": None, "is_by_message": False, "is_astray": True}
                play.stories[visit["name"]] = play.story(visit)._replace(**changed)
                return True
    return False
