"""Civil days of a ledger: text and number, closings, due dates, last days for bills."""

from datetime import date, timedelta

EPOCH = date(1970, 1, 1)
FIRST_DAY = date(2011, 1, 1)
LAST_DAY = date(2099, 12, 31)

# A statement has to be issued so many days before its payment is due (12 CFR 1026.5(b)(2)(ii)(A)).
TIMELY = 21


def day_of(text: str) -> date | None:
    """The day of a text `YYYY-MM-DD` that a request may name, else None."""
    if len(text) != 10 or text[4] != "-" or text[7] != "-" or not text.isascii():
        return None
    if not (text[:4] + text[5:7] + text[8:]).isdigit():
        return None
    try:
        day = date(int(text[:4]), int(text[5:7]), int(text[8:]))
    except ValueError:
        return None
    return day if FIRST_DAY <= day <= LAST_DAY else None


def day_at(number: int) -> date | None:
    """The day of a number of days since 1970-01-01, where a request may name it, else None."""
    if not (FIRST_DAY - EPOCH).days <= number <= (LAST_DAY - EPOCH).days:
        return None
    return EPOCH + timedelta(days=number)


def month_on(year: int, month: int, months: int, day: int) -> date:
    """The day of the month that many months later."""
    place = year * 12 + month - 1 + months
    return date(place // 12, place % 12 + 1, day)


def closing(opened: date, close: int, cycle: int) -> date:
    """The last day of a cycle, counted from 1.

    It is the closing day of the month that comes so many times on or after the opening day.
    """
    ahead = cycle - 1 if opened.day <= close else cycle
    return month_on(opened.year, opened.month, ahead, close)


def closed_cycles(opened: date, close: int, today: date) -> int:
    """How many cycles have closed before today."""
    months = (today.year - opened.year) * 12 + today.month - opened.month
    cycles = months + 1 if opened.day <= close else months
    while cycles > 0 and closing(opened, close, cycles) >= today:
        cycles -= 1
    return max(cycles, 0)


def due(closed: date) -> date:
    """The day on which the payment of a statement is due, from its closing."""
    if closed.day <= 4:
        return month_on(closed.year, closed.month, 0, closed.day + 24)
    return month_on(closed.year, closed.month, 1, closed.day - 4)


def last_bill_day(closed: date) -> date:
    """The last day on which a bill of the cycle still asks for a payment."""
    return due(closed) - timedelta(days=TIMELY)
