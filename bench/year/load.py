"""The lines of a shard: its opening, the nights of its months, and its bills."""

import datetime
from typing import NamedTuple

from .accounts import BACK, Account, Draw, Month, opening_line, posts
from .calendar import HOLIDAYS, ONE_DAY, Calendar, calendar_of

HEAD = ("feerow 2011-01-02 3000 4100", "index 2011-01-02 525",
        *(f"holiday {day}" for day in HOLIDAYS))
INDEX_EVERY = 4  # months
INDEX_STEPS = (525, 500, 475, 550)


class Night(NamedTuple):
    """The lines of a night: the shared ones with its roll first, then the records."""

    day: datetime.date
    shared: list[str]
    records: list[str]


class Shard:
    """The accounts of a shard, and the lines that its nights bring, the same for the same seed."""

    def __init__(self, number: int, accounts: int, seed: int) -> None:
        self.number = number
        self.calendar: Calendar = calendar_of(number)
        self.draw = Draw(f"{seed}/{number}")
        self.accounts: list[Account] = [self.draw.account(f"c{number}-{at:05}")
                                        for at in range(accounts)]

    def opening(self) -> list[str]:
        day = str(self.calendar.opening)
        opened = [opening_line(account, day, self.calendar.closing_day)
                  for account in self.accounts]
        return [*HEAD, f"roll {day}", *opened]

    def nights(self, number: int) -> list[Night]:
        """The nights of a month, from 1 on. Amounts of the last statements have to be there."""
        days = self.calendar.nights(number)
        found = [Night(day, [f"roll {day}"], []) for day in days]
        if number % INDEX_EVERY == 0:
            rate = INDEX_STEPS[number // INDEX_EVERY % len(INDEX_STEPS)]
            found[0].shared.append(f"index {days[0] + ONE_DAY} {rate}")
        month = self.month(number, days)
        for account in self.accounts:
            for post in posts(self.draw, account, month):
                found[post.night].records.append(
                    f"{post.word} {account.name} {post.key} {post.rest}")
        return found

    def month(self, number: int, days: list[datetime.date]) -> Month:
        before = BACK if number > 1 else 0
        first = days[0] - ONE_DAY * (before + 1)
        return Month(number, [str(first + ONE_DAY * at) for at in range(before + len(days))],
                     len(days))

    def bills(self, number: int) -> list[str]:
        """The bills of a cycle, which are posts too."""
        for account in self.accounts:
            account.posts += 1
        return [f"bill {account.name} b{number} {number}" for account in self.accounts]
