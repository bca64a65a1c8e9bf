"""Movement messages, with times as day of the month, hours and minutes."""

import time

from clock import MINUTES_OF_DAY


class Writer:
    """Writes the messages about the flights of a plan at its station."""

    def __init__(self, clock, station):
        self.clock, self.station = clock, station

    def at(self, minute):
        day, rest = divmod(int(minute), MINUTES_OF_DAY)
        return f"{time.strftime('%d', self.clock.date_of(day + 1))}{rest // 60:02}{rest % 60:02}"

    def message(self, flight, registration, sender, elements):
        day = time.strftime("%d", self.clock.date_of(flight["day"]))
        return f"MVT\n{flight['flight']}/{day}.{registration}.{sender}\n{elements}\n"

    def lands_at(self, visit, story, minute):
        """Another station expects the touchdown at a minute."""
        return self.message(visit["arr"], story.registration, "FRA", f"EA{self.at(minute)} {self.station}")

    def landed(self, visit, story, minute):
        return self.message(visit["arr"], story.registration, self.station, f"AA{self.at(minute)}")

    def on_block(self, visit, story, touchdown, minute):
        return self.message(visit["arr"], story.registration, self.station, f"AA{self.at(touchdown)}/{self.at(minute)}")

    def leaves_at(self, visit, story, minute):
        """The visit is expected off block at a minute."""
        return self.message(visit["dep"], story.registration, self.station, f"ED{self.at(minute)}")

    def off_block(self, visit, story, minute):
        return self.message(visit["dep"], story.registration, self.station, f"AD{self.at(minute)}/{self.at(minute + 11)} EA{self.at(minute + 75)} FRA")
