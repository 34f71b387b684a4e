"""Request lines of one account with up to 200,000 posts, and of a million accounts only opened."""

import datetime
import random
from collections.abc import Callable, Iterator

from .streams import FEES, RATES

FIRST = datetime.date(2011, 1, 2)
OPEN = (FEES, f"roll {FIRST}", f"open a o {FIRST} 5 {RATES}")
LETTERS = "abcdefghijklmnopqrstuvwxyz0123456789"


def usual_key(number: int) -> str:
    return f"k{number}"


def random_key() -> Callable[[int], str]:
    source = random.Random(7)
    return lambda number: "".join(source.choice(LETTERS) for _ in range(32))


def usual(posts: int, key: Callable[[int], str] = usual_key, *, daily: bool = False,
          each: bool = False) -> Iterator[str]:
    """So many posts over 20 years: charges and some payments of each day, a bill a month."""
    yield from OPEN
    made, days = 1, 20 * 365
    for at in range(1, days):
        day = FIRST + datetime.timedelta(at)
        yield f"roll {day}"
        if day.day == 6:
            made += 1
            cycle = (day.year - 2011) * 12 + day.month - 1
            yield f"bill a b{cycle + 1} {cycle + 1}"
        while made < posts * at // days:
            made += 1
            if made % 3 == 0:
                yield f"payment a {key(made)} {day} 600 online 900"
            else:
                yield f"charge a {key(made)} {day} purchase {500 + made % 900}"
            if each:
                yield "show a"
        if daily:
            yield "show a"


def corrected(has_return: bool) -> Iterator[str]:
    """200,000 posts with 2,400 charges that are amended, with a returned payment or without one."""
    charge: list[str] = []
    count = 0
    for at, line in enumerate(usual(197_000)):
        yield line
        words = line.split()
        if words[0] == "charge":
            charge = words
        if at == 300 and has_return:
            yield f"payment a paid {charge[3]} 600 online 100"
            yield f"return a back {charge[3]} NUMBER"
        if at % 80 == 79 and charge and count < 2400:
            count += 1
            yield f"amend a m{count} NUMBER {charge[3]} 700"


def numbered(lines: Iterator[str]) -> Iterator[str]:
    """The lines with the number of the post before in place of NUMBER."""
    posts, last = 0, {"charge": 0, "payment": 0}
    for line in lines:
        words = line.split()
        if words[0] == "amend":
            words[3] = str(last["charge"])
        if words[0] == "return":
            words[4] = str(last["payment"])
        if words[0] not in ("roll", "feerow", "show", "holiday", "index"):
            posts += 1
        if words[0] in last:
            last[words[0]] = posts
        yield " ".join(words)


def dated_back(count: int) -> Iterator[str]:
    yield "roll 2099-01-01"
    yield f"open a o 2020-01-02 5 {RATES}"
    for number in range(count):
        day = datetime.date(2098, 12, 31) - datetime.timedelta(number % 28_000)
        yield f"charge a k{number} {day} purchase 100"


def amended(count: int) -> Iterator[str]:
    """Half of so many posts are charges; each is then amended, in a random order."""
    yield from OPEN
    charges = list(range(count // 2))
    yield from (f"charge a c{number} {FIRST} purchase 1000" for number in charges)
    random.Random(7).shuffle(charges)
    yield from (f"amend a m{number} {number + 2} {FIRST} 900" for number in charges)


def disputed(count: int) -> Iterator[str]:
    yield from OPEN
    yield "roll 2011-02-01"
    for number in range(count // 3):
        yield f"charge a c{number} 2011-01-20 purchase 100"
        yield f"dispute a d{number} 2011-02-01 {3 * number + 2} 100"
        yield f"resolve a r{number} 2011-02-01 {3 * number + 3} 50"


def returned(count: int) -> Iterator[str]:
    yield from OPEN
    yield "charge a c 2011-01-02 purchase 900000"
    yield "roll 2011-02-01"
    for number in range(count // 2):
        yield f"payment a p{number} 2011-01-20 600 online 100"
        yield f"return a r{number} 2011-01-25 {2 * number + 3}"


def paid_after_a_bill(count: int) -> Iterator[str]:
    yield from OPEN
    yield "charge a c 2011-01-02 purchase 90000000"
    yield "roll 2011-02-06"
    yield "bill a b 1"
    yield "roll 2011-02-10"
    yield from (f"payment a p{number} 2011-02-10 600 online 1" for number in range(count))


def billed(count: int) -> Iterator[str]:
    yield from OPEN
    yield "roll 2011-02-05"
    yield from (f"charge a c{number} 2011-01-20 purchase 100" for number in range(count))
    yield "roll 2011-02-06"
    yield "bill a b 1"


def opened(count: int) -> Iterator[str]:
    yield "roll 2011-01-02"
    yield f"open a o 2011-01-02 5 {RATES}"
    yield from (f"open a{number} o 2011-01-02 5 {RATES}" for number in range(1, count))
