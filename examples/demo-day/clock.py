"""The clock of the demonstration: that of this machine at first, and then so many times as fast."""

import time

MINUTES_OF_DAY = 1440
SECONDS_OF_DAY = 86400


class Clock:
    """Begins at a time of the present day, in minutes from 00:00 UTC, or at the present time if that is None. The plan's first day is the day before."""

    def __init__(self, speed, at=None):
        now = time.time()
        midnight = now - now % SECONDS_OF_DAY
        self.speed, self.begun = speed, time.monotonic()
        self.begins = now if at is None else midnight + 60 * at
        self.first_midnight = midnight - SECONDS_OF_DAY

    def seconds(self):
        """The seconds since 1970 of the demonstration."""
        return self.begins + (time.monotonic() - self.begun) * self.speed

    def minute(self):
        """The minutes since 00:00 UTC of the plan's first day, with a fraction."""
        return (self.seconds() - self.first_midnight) / 60

    def date_of(self, day):
        """The date of a day of the plan; day 0 is the day before its first."""
        return time.gmtime(self.first_midnight + (day - 1) * SECONDS_OF_DAY + 1)
