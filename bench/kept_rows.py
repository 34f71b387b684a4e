"""Seconds of `apply` with rows in memory, and of loading its rows from a file: the least of five.

Over charges of 1,000 accounts (`lines`); over accounts of two years with a charge, a bill and a
payment a month (`bills`); over 5,000 corrections of the charges of such an account (`amends`). What
a row in a file costs, the measure file-rows says.
"""

import os
from collections.abc import Callable, Iterator

from .measure import Options, Row, least, measured, memory_room, written
from .streams import FEES, RATES

MONTHS = 24
FIRST = "2024-01-02"


def charges(lines: int, accounts: int = 1000) -> Iterator[str]:
    """One roll, the accounts, and charges to them in order."""
    yield "roll 2024-03-01"
    yield from (f"open a{at:04} o 2024-03-01 5 {RATES}" for at in range(accounts))
    for number in range(accounts + 1, lines):
        account, cents = number * 7919 % accounts, 100 + number % 9000
        yield f"charge a{account:04} c{number} 2024-03-01 purchase {cents}"


def month_of(number: int) -> str:
    return f"{2024 + number // 12}-{number % 12 + 1:02}"


def months(accounts: int) -> Iterator[str]:
    """On the 4th of each month a charge, on the 6th the bill of the cycle that closed on the 5th,
    and on the 20th a payment, for each account."""
    yield from (FEES, f"roll {FIRST}")
    yield from (f"open a{at:04} o {FIRST} 5 {RATES}" for at in range(accounts))
    for number in range(MONTHS):
        month = month_of(number)
        yield f"roll {month}-04"
        for at in range(accounts):
            cents = 5000 + (at + number) % 90 * 100
            yield f"charge a{at:04} c{number} {month}-04 purchase {cents}"
        yield f"roll {month}-06"
        yield from (f"bill a{at:04} b{number} {number + 1}" for at in range(accounts))
        yield f"roll {month}-20"
        for at in range(accounts):
            cents = 2500 + (at * 7 + number) % 60 * 100
            yield f"payment a{at:04} p{number} {month}-20 600 online {cents}"


def corrections(amends: int) -> Iterator[str]:
    """An account over 24 months, so many corrections of its charges in turn, and a question."""
    yield from months(1)
    for number in range(amends):
        at = number * 7 % MONTHS
        cents = 4000 + number % 97 * 100
        yield f"amend a0000 m{number} {2 + 3 * at} {month_of(at)}-04 {cents}"
    yield "show a0000"


FORMS: dict[str, tuple[Callable[[int], Iterator[str]], int]] = {
    "lines-50000": (charges, 50_000), "lines-200000": (charges, 200_000),
    "bills-100": (months, 100), "bills-1000": (months, 1000),
    "amends-5000": (corrections, 5000),
}
CASES = tuple(FORMS)


def measure(case: str, options: Options) -> Iterator[Row]:
    form, usual = FORMS[case]
    count = options.size(usual)
    with memory_room() as room:
        path, file = os.path.join(room, "lines"), os.path.join(room, "rows.db")
        replies = os.path.join(room, "replies")
        program, lines = options.programs()[0], written(lambda: form(count), path)
        used = least(5, lambda: measured([program, "-", "apply"], path, (0, 1), replies))
        with open(replies, encoding="ascii") as told:
            accepted = sum(line.startswith("ok") for line in told)
        note = f"{lines:,} lines, {accepted:,} accepted"
        yield Row(f"{case}: apply", used.seconds, "s", note)
        measured([program, file, "apply"], path, (0, 1))
        used = least(5, lambda: measured([program, file, "apply"]))
        yield Row(f"{case}: load", used.seconds, "s")
