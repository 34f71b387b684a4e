"""Request lines of usual work, the same at each call."""

import datetime
from collections.abc import Iterator

FIRST = datetime.date(2024, 1, 2)
FEES = "feerow 2011-01-02 3000 4100"
HEAD = (FEES, f"roll {FIRST}")
TERMS = "5 1999 2499 2199 2999 2500 100"
RATES = "1999 2499 2199 2999 2500 100"
PLACES = ("purchase", "purchase", "purchase", "cash", "transfer")
CHANNELS = ("online", "online", "mail")
YEAR = 366


class Drawn:
    """Numbers drawn from a seed, the same everywhere."""

    def __init__(self, seed: int) -> None:
        self.x = seed

    def next(self, below: int) -> int:
        self.x = (self.x * 6364136223846793005 + 1442695040888963407) % 2**64
        return (self.x >> 33) % below


def later(days: int) -> datetime.date:
    return FIRST + datetime.timedelta(days)


def month_day(number: int, day: int) -> str:
    """A day of the month of this number, from 0 on, after January 2024."""
    return f"{2024 + number // 12}-{number % 12 + 1:02}-{day:02}"


def opened(accounts: int, name: str = "a{}") -> Iterator[str]:
    yield from (f"open {name.format(at)} o {FIRST} {TERMS}" for at in range(accounts))


def drawn_post(drawn: Drawn, account: str, key: str, today: datetime.date) -> str:
    """A charge, seven times in ten, a payment or a merchant's credit; one in four up to five days
    late."""
    kind = drawn.next(10)
    day = max(today - datetime.timedelta(0 if drawn.next(4) else drawn.next(6)), FIRST)
    if kind < 7:
        return f"charge {account} {key} {day} {PLACES[drawn.next(5)]} {100 + drawn.next(15000)}"
    if kind < 9:
        minute, channel = drawn.next(1440), CHANNELS[drawn.next(3)]
        return f"payment {account} {key} {day} {minute} {channel} {1000 + drawn.next(40000)}"
    return f"credit {account} {key} {day} purchase {100 + drawn.next(3000)}"


def ordinary(accounts: int = 1_000, lines: int = 200_000, variable: bool = False) -> Iterator[str]:
    """A year of accounts, each with a bill a month, and posts that are most of them of today.

    Variable accounts follow an index with a row a fortnight.
    """
    drawn, word = Drawn(7), "openvar" if variable else "open"
    if variable:
        yield "index 2011-01-02 500"
    yield from HEAD
    close, cycle, posts = [], [0] * accounts, [0] * accounts
    for i in range(accounts):
        close.append(1 + drawn.next(28))
        yield f"{word} acct-{i} open {FIRST} {close[i]} {RATES}"
    for number in range(1, YEAR + 1):
        if variable and number % 15 == 0:
            yield f"index {later(number)} {500 + number % 7 * 25}"
        yield f"roll {later(number)}"
        for i in range(accounts):
            if later(number - 1).day == close[i]:
                cycle[i] += 1
                yield f"bill acct-{i} bill-{cycle[i]} {cycle[i]}"
        for _ in range(max(0, (lines - 14 * accounts) // YEAR)):
            i = drawn.next(accounts)
            posts[i] += 1
            yield drawn_post(drawn, f"acct-{i}", f"k-{posts[i]}", later(number))


def corrections(amends: int = 5_000) -> Iterator[str]:
    """Corrections of old charges of one account of two years."""
    drawn = Drawn(11)
    yield from (FEES, "roll 2024-01-10", f"open a o 2024-01-06 {TERMS}")
    posts, cycle, early = 1, 0, []
    for number in range(731):
        day = datetime.date(2024, 1, 10) + datetime.timedelta(number)
        yield f"roll {day}"
        if day.day == 6:
            cycle, posts = cycle + 1, posts + 1
            yield f"bill a b{cycle} {cycle}"
        if day.day % 3 == 1:
            posts += 1
            place = ("purchase", "purchase", "cash")[drawn.next(3)]
            yield f"charge a c{posts} {day} {place} {100 + drawn.next(20000)}"
            if day < datetime.date(2024, 4, 1):
                early.append((posts, day))
        if day.day == 20:
            posts += 1
            yield f"payment a p{posts} {day} 600 online {1000 + drawn.next(60000)}"
    for number in range(amends):
        target, day = early[drawn.next(len(early))]
        yield f"amend a m{number} {target} {day} {drawn.next(20000)}"
    yield "show a"


def ages(cycles: int = 600, accounts: int = 10) -> Iterator[str]:
    """A bill, a charge, a payment and a question a month for each account."""
    yield from HEAD
    yield from opened(accounts)
    for number in range(cycles):
        day = month_day(number, 6)
        yield f"roll {day}"
        for at in range(accounts):
            cents, paid = 5000 + (at + number) % 90 * 100, 2500 + (at * 7 + number) % 60 * 100
            yield f"bill a{at} b{number} {number + 1}"
            yield f"charge a{at} c{number} {day} purchase {cents}"
            yield f"payment a{at} p{number} {day} 600 online {paid}"
            yield f"show a{at}"


def busy(bills: bool, posts: int = 9_990) -> Iterator[str]:
    """Posts of one account in a year, with a question behind each."""
    yield from (*HEAD, f"open a o {FIRST} {TERMS}")
    made, cycle = 0, 0
    for number in range(1, 361):
        day = later(number)
        yield f"roll {day}"
        if bills and day.day == 6:
            cycle += 1
            yield f"bill a b{cycle} {cycle}"
        while made < posts * number // 360:
            made += 1
            if made % 4:
                yield f"charge a k{made} {day} purchase {300 + made * 13 % 90 * 10}"
            else:
                yield f"payment a k{made} {day} 600 online {500 + made * 7 % 60 * 10}"
            yield "show a"


def opens(accounts: int = 100_000) -> Iterator[str]:
    """Openings alone."""
    yield from HEAD
    yield from opened(accounts)


def closed(accounts: int = 100) -> Iterator[str]:
    """Accounts of 24 closed cycles with one charge, and a question of each."""
    yield from HEAD
    for at in range(accounts):
        yield f"open a{at} o {FIRST} {TERMS}"
        yield f"charge a{at} c {FIRST} purchase 50000"
    yield from (f"roll {month_day(number, 6)}" for number in range(1, 25))
    yield from (f"show a{at}" for at in range(accounts))


def cycled(accounts: int, posts: int, cycles: int = 24) -> Iterator[str]:
    """Accounts of so many billed cycles with so many posts in each, the bill not counted: a payment
    for every three charges."""
    yield from HEAD
    yield from opened(accounts)
    for number in range(cycles):
        for at in range(posts):
            day = month_day(number, 6 + 2 * at)
            yield f"roll {day}"
            for i in range(accounts):
                if at == 0 and number:
                    yield f"bill a{i} b{number} {number}"
                cents = 2000 + (i * 13 + number * 7 + at * 31) % 900 * 10
                if at % 4 == 2:
                    yield f"payment a{i} k{number}-{at} {day} 600 online {cents}"
                else:
                    yield f"charge a{i} k{number}-{at} {day} purchase {cents}"
    yield f"roll {month_day(cycles, 6)}"
    yield from (f"bill a{i} b{cycles} {cycles}" for i in range(accounts))
