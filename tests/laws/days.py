"""Days of the civil calendar, as the checks count them."""

import calendar
import datetime
from collections.abc import Iterator

Date = datetime.date
DAY = datetime.timedelta(days=1)


def day_of(text: str) -> Date:
    return Date.fromisoformat(text)


def months_on(day: Date, months: int, day_of_month: int) -> Date:
    """The day of the month so many months after the month of a day."""
    month = day.year * 12 + day.month - 1 + months
    return Date(month // 12, month % 12 + 1, day_of_month)


def is_business(day: Date, holidays: set[Date]) -> bool:
    return day.weekday() < calendar.SATURDAY and day not in holidays


def days_between(first: Date, last: Date) -> Iterator[Date]:
    """The days from one to another, both included."""
    return (first + i * DAY for i in range((last - first).days + 1))
