"""What billctl's texts say: entries, what an account owes, and statements as they are printed."""

import functools
from collections.abc import Iterable
from dataclasses import dataclass, field
from datetime import date
from typing import NamedTuple

from companion.days import day_of


def money(cents: int) -> str:
    """Cents as units, a point and two digits."""
    sign = "-" if cents < 0 else ""
    return f"{sign}{abs(cents) // 100}.{abs(cents) % 100:02}"


def grouped(cents: int) -> str:
    """Cents as units with commas, a point and two digits."""
    sign = "-" if cents < 0 else ""
    return f"{sign}{abs(cents) // 100:,}.{abs(cents) % 100:02}"


def cents_of(text: str) -> int:
    """The cents of units, a point and two digits."""
    units, _, rest = text.lstrip("-").partition(".")
    cents = int(units) * 100 + int(rest or 0)
    return -cents if text.startswith("-") else cents


@functools.lru_cache(maxsize=None)
def known_day(text: str) -> date:
    """The day of a text that billctl wrote."""
    found = day_of(text)
    return found if found is not None else date.fromisoformat(text)


class Entry(NamedTuple):
    """An entry of an account: what a post, a fee or interest did to one balance on a day."""

    day: date
    segment: str
    kind: str
    post: int
    cents: int


def entries_of(text: str) -> list[Entry]:
    """The entries that `export` prints."""
    found = []
    for line in text.splitlines()[1:]:
        day, segment, kind, post, cents = line.split(",")
        found.append(Entry(known_day(day), segment, kind, int(post), int(cents)))
    return found


def owed_at(entries: Iterable[Entry], day: date) -> int:
    """What is owed at the end of a day, credit balances taken off."""
    return sum(entry.cents for entry in entries if entry.day <= day)


@dataclass(frozen=True)
class Shown:
    """What `show` says of an account."""

    owed: int
    credit: int
    held: int


def shown_of(line: str) -> Shown:
    parts = line.split(" ")
    return Shown(int(parts[4]), int(parts[6]), int(parts[8]))


@dataclass(frozen=True)
class Rate:
    """A RATE line: the balance, its yearly rate, daily rate, average and interest."""

    segment: str
    yearly: int
    daily: int
    average: int
    interest: int


@dataclass
class Printed:
    """A statement as it is printed."""

    account: str = ""
    cycle: int = 0
    first: date = date.min
    closing: date = date.min
    due: date | None = None
    numbers: dict[str, int] = field(default_factory=dict)
    posts: set[int] = field(default_factory=set)
    rates: list[Rate] = field(default_factory=list)
    plans: list[tuple[int, date]] = field(default_factory=list)

    @property
    def minimum(self) -> int:
        return self.numbers.get("MINIMUM PAYMENT", 0)

    @property
    def days(self) -> int:
        return (self.closing - self.first).days + 1


def rate_of(parts: list[str]) -> Rate:
    return Rate(parts[1], cents_of(parts[2].rstrip("%")), int(parts[3].replace(".", "")),
                cents_of(parts[4]), cents_of(parts[5]))


def printed_of(text: str) -> Printed:
    """What a statement says, read off its lines."""
    found = Printed()
    for line in text.splitlines():
        parts = line.split()
        if parts[0] == "STATEMENT":
            found.account, found.cycle = parts[1], int(parts[3])
        elif parts[0] == "PERIOD":
            found.first, found.closing = known_day(parts[1]), known_day(parts[3])
        elif line.startswith("PAYMENT DUE DATE"):
            found.due = None if parts[-1] == "-" else known_day(parts[-1])
        elif parts[0] == "RATE":
            found.rates.append(rate_of(parts))
        elif day_of(parts[0]) is not None:
            found.posts.add(int(parts[2]))
        elif parts[0] == "DEFERRED":
            found.plans.append((cents_of(parts[2]), known_day(parts[-1])))
        elif parts[0] != "LATE":
            found.numbers[" ".join(parts[:-1])] = cents_of(parts[-1])
    return found
