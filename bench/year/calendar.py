"""The days of a shard: its closings, and its nights, month by month."""

import datetime
from typing import NamedTuple

YEAR = 2024
ONE_DAY = datetime.timedelta(days=1)
CLOSING_DAYS = 28
STEP = 9  # has no divisor in common with 28, so each closing day has its shards
MOST_MONTHS = 120

# Days without business in these thirteen months, at the Federal Reserve.
HOLIDAYS = (
    "2024-01-01", "2024-01-15", "2024-02-19", "2024-05-27", "2024-06-19", "2024-07-04",
    "2024-09-02", "2024-10-14", "2024-11-11", "2024-11-28", "2024-12-25", "2025-01-01",
    "2025-01-20",
)


class Calendar(NamedTuple):
    """Cycles that close on the same day of each month. Cycle 1 begins in January."""

    closing_day: int

    def closing(self, month: int) -> datetime.date:
        """The closing of the cycle of this number; that of 0 is before the first one."""
        return datetime.date(YEAR + month // 12, month % 12 + 1, self.closing_day)

    @property
    def opening(self) -> datetime.date:
        return self.closing(0) + ONE_DAY

    def nights(self, month: int) -> list[datetime.date]:
        """The nights that have the records of a cycle: each has those of the day before."""
        first, last = self.closing(month - 1) + 2 * ONE_DAY, self.closing(month) + ONE_DAY
        return [first + ONE_DAY * at for at in range((last - first).days + 1)]


def calendar_of(shard: int) -> Calendar:
    return Calendar(1 + shard * STEP % CLOSING_DAYS)
