"""What statements ask for, without what is in dispute (12 CFR 1026.13(d)(1))."""

import collections

from .days import Date
from .papers import Account, Broken, Papers

Count = collections.Counter[str]


def owed_on(account: Account, day: Date, held: bool) -> int:
    """What is owed at the end of a day: on Held, or without it."""
    return sum(entry.cents for entry in account.entries
               if entry.day <= day and (entry.segment == "held") == held)


def check_asked(account: Account, papers: Papers, count: Count) -> None:
    """The minimum payment of a closed cycle is at most what is owed at its closing without what is
    held.  So a late fee, which check_late_fees holds against it, never results from the disputed
    amount alone."""
    for cycle, closed in account.cycles.items():
        closing = account.closing(cycle)
        rest = max(0, owed_on(account, closing, held=False))
        count["asked"] += 1
        count["asked, disputed"] += owed_on(account, closing, held=True) > 0
        if closed.minimum > rest:
            raise Broken(f"asked: {account.name}: cycle {cycle} asks for {closed.minimum} cents, "
                         f"and {rest} are owed without what is in dispute")
