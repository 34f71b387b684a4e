"""Civil days, cycles, due dates, business days and the credit day.

A day is a whole number: the days since 1970-01-01.
"""

import datetime
from functools import lru_cache
from typing import NamedTuple

_EPOCH = datetime.date(1970, 1, 1).toordinal()
CUTOFF_MINUTE = 1020  # 17:00
TIMELY_DAYS = 21  # from the issue of a statement to its due date


def from_ymd(year: int, month: int, day: int) -> int | None:
    """The day with this civil date, or None where no such day is."""
    try:
        return datetime.date(year, month, day).toordinal() - _EPOCH
    except ValueError:
        return None


def known_day(year: int, month: int, day: int) -> int:
    """The day with a civil date that is known to be there."""
    return datetime.date(year, month, day).toordinal() - _EPOCH


FIRST_DAY = known_day(2011, 1, 1)
LAST_REQUEST_DAY = known_day(2099, 12, 31)
LAST_DAY = known_day(2102, 12, 31)


@lru_cache(maxsize=None)
def ymd(day: int) -> tuple[int, int, int]:
    date = datetime.date.fromordinal(day + _EPOCH)
    return date.year, date.month, date.day


def day_text(day: int) -> str:
    return "%04d-%02d-%02d" % ymd(day)


def day_of(text: str) -> int:
    """The day of a text that is known to be good, as `2024-01-10`."""
    year, month, day = map(int, text.split("-"))
    return known_day(year, month, day)


class Anchor(NamedTuple):
    """What fixes an account's cycles: its opening day and its closing day of the month."""
    opened: int
    close_day: int


def _months(anchor: Anchor) -> int:
    """The month (12 * year + month - 1) of the first closing."""
    year, month, day = ymd(anchor.opened)
    return 12 * year + month - 1 + (1 if day > anchor.close_day else 0)


def _in_month(months: int, day: int) -> int | None:
    found = from_ymd(months // 12, months % 12 + 1, day) if months // 12 <= 9999 else None
    return found if found is not None and found <= LAST_DAY else None


@lru_cache(maxsize=None)
def closing(anchor: Anchor, k: int) -> int | None:
    """The k-th day of the month C on or after the opening day; None for k = 0 or too late."""
    if k < 1:
        return None
    return _in_month(_months(anchor) + k - 1, anchor.close_day)


@lru_cache(maxsize=None)
def due(anchor: Anchor, k: int) -> int | None:
    """Day C+24 of the closing's month where C is at most 4, else day C-4 of the next month."""
    if k < 1:
        return None
    months = _months(anchor) + k - 1
    if anchor.close_day <= 4:
        return _in_month(months, anchor.close_day + 24)
    return _in_month(months + 1, anchor.close_day - 4)


def closing_day(anchor: Anchor, k: int) -> int:
    """The closing of a cycle that is known to have one."""
    found = closing(anchor, k)
    if found is None:
        raise ValueError(f"cycle {k} has no closing: ask for cycles from 1 to the last year's")
    return found


def due_day(anchor: Anchor, k: int) -> int:
    """The due date of a cycle that is known to have one."""
    found = due(anchor, k)
    if found is None:
        raise ValueError(f"cycle {k} has no due date: ask for cycles from 1 to the last year's")
    return found


def is_timely(anchor: Anchor, k: int, issued: int) -> bool:
    """Statement k was issued at least 21 days before its payment is due."""
    return due_day(anchor, k) - issued >= TIMELY_DAYS


@lru_cache(maxsize=None)
def cycle_of(anchor: Anchor, day: int) -> int:
    """The cycle that holds a day: the first k whose closing isn't before it."""
    year, month, dom = ymd(day)
    k = 12 * year + month - 1 - _months(anchor) + 1 + (1 if dom > anchor.close_day else 0)
    return max(k, 1)


def cycle_start(anchor: Anchor, k: int) -> int:
    """Cycle 1 begins on the opening day, cycle k+1 on the day after closing(k)."""
    return anchor.opened if k == 1 else closing_day(anchor, k - 1) + 1


def six_months_after(day: int) -> int:
    """The same day of the sixth month after, or that month's last day."""
    year, month, dom = ymd(day)
    months = 12 * year + month - 1 + 6
    while True:
        found = from_ymd(months // 12, months % 12 + 1, dom)
        if found is not None:
            return found
        dom -= 1


def year_after(day: int) -> int:
    """The same day a year later, and March 1 for February 29."""
    year, month, dom = ymd(day)
    found = from_ymd(year + 1, month, dom)
    return found if found is not None else known_day(year + 1, 3, 1)


def is_business(day: int, holidays: frozenset[int]) -> bool:
    """A Monday to Friday that isn't a loaded holiday.  1970-01-01 was a Thursday."""
    return (day + 3) % 7 < 5 and day not in holidays


def next_business(day: int, holidays: frozenset[int]) -> int:
    """The first business day after a day."""
    day += 1
    while not is_business(day, holidays):
        day += 1
    return day


@lru_cache(maxsize=None)
def credit_day(anchor: Anchor, receipt: int, minute: int, channel: str,
               holidays: frozenset[int]) -> int:
    """The day on which a payment is credited.

    After 17:00 it is the next day.  A mail payment received on the first
    business day after a due date that isn't a business day is credited as of
    the greatest such due date.  Else it is the day of receipt.
    """
    if minute > CUTOFF_MINUTE:
        return receipt + 1
    if channel == "mail":
        for k in range(cycle_of(anchor, receipt), 0, -1):
            date = due(anchor, k)
            if (date is not None and date < receipt and not is_business(date, holidays)
                    and next_business(date, holidays) == receipt):
                return date
    return receipt
