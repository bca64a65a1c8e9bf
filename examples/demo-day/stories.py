"""What happens to a visit: drawn from the seed, the day of the plan and the visit's number on it, so that it is the same however the day is
played, and on whatever date."""

import datetime
import random
from typing import NamedTuple, Optional

from clock import MINUTES_OF_DAY

# The first day of the plan in the pictures of docs/tutorial: so each day has their stories.
PICTURED = datetime.date(2026, 11, 29)


class Story(NamedTuple):
    """Minutes are counted from the scheduled ones; how long before the scheduled minute something is told, None if it is not."""
    comes_late: float
    arrival_told: Optional[int]
    leaves_late: float
    departure_told: Optional[int]
    # Whether what happens on the apron is told by movement messages; else by reports.
    is_by_message: bool
    # Whether it is first reported on a stand beside its own, or comes on block where another aircraft still stands.
    is_astray: bool
    registration: str


def story_of(seed, visit):
    """The story of a visit."""
    day = PICTURED + datetime.timedelta(days=visit["on"] // MINUTES_OF_DAY)
    number = visit["name"].partition("-")[2]
    draws = random.Random(f"{seed} {day.strftime('%b%d').upper()}-{number}")
    comes_late, arrival_told = arrival_of(draws)
    leaves_late, departure_told = departure_of(draws)
    letters = "".join(draws.choice("ABCDEFGHIJKLMNOPQRSTUVWXYZ") for _ in range(3))
    return Story(
        comes_late + draws.random(), arrival_told, leaves_late + draws.random(), departure_told, draws.random() < 0.5, draws.random() < 0.03,
        f"DA{letters}")


def arrival_of(draws):
    drawn = draws.random()
    if drawn < 0.5:
        return draws.randint(-4, 4), None
    if drawn < 0.68:
        return -draws.randint(7, 25), draws.randint(40, 90)
    if drawn < 0.93:
        return draws.randint(8, 40), draws.randint(30, 90)
    return draws.randint(45, 120), draws.randint(60, 150)


def departure_of(draws):
    """Some leave late without a word; of some the delay is told only after the time at which they should have left."""
    drawn = draws.random()
    if drawn < 0.62:
        return draws.randint(-3, 5), None
    if drawn < 0.8:
        return draws.randint(7, 18), None
    if drawn < 0.94:
        return draws.randint(15, 50), draws.randint(5, 40)
    return draws.randint(20, 45), -8
