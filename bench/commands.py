"""Seconds of the other commands: `import`, `export`, `work` and `repay`, the least of several runs.

`import` of 200,000 records of charges, credits and payments over 1,000 accounts, beside `apply` of
the same requests as lines; `export` of an account with 10,000 posts; `work` over 10,000 accounts,
each with a dispute and a refund asked for; `repay` of the last statement of an account of two
years, and of one with 62 balances of ten million dollars, each at a rate of its own. Rows are in a
file in memory; the time to load them alone is in the note.
"""

import datetime
import os
import shutil
from collections.abc import Callable, Iterable, Iterator
from functools import partial

from tests.support.requests import HEADER

from .measure import Options, Row, least, measured, memory_room, written
from .streams import RATES

CASES = ("import", "export", "work", "repay-usual", "repay-many")
FIRST = datetime.date(2024, 3, 1)
YEAR_ON = FIRST + datetime.timedelta(days=360)
REQUESTS = 200_000
Post = tuple[int, int, datetime.date, str]


def openings(accounts: int) -> Iterator[str]:
    yield f"roll {FIRST}"
    yield from (f"open a{at} o {FIRST} 5 {RATES}" for at in range(accounts))
    yield f"roll {YEAR_ON}"


def posts(count: int, accounts: int) -> Iterator[Post]:
    for number in range(count):
        day = FIRST + datetime.timedelta(days=number * 360 // count)
        kind = ("charge", "credit", "payment")[number // accounts % 3]
        yield number % accounts, number, day, kind


def as_line(post: Post) -> str:
    account, number, day, kind = post
    cents = {"charge": 2500, "credit": 500, "payment": 1500}[kind]
    where = f"{day} 600 online" if kind == "payment" else f"{day} purchase"
    return f"{kind} a{account} k{number} {where} {cents}"


def as_record(post: Post) -> str:
    account, number, day, kind = post
    cents = {"charge": 2500, "credit": 500, "payment": 1500}[kind]
    what = f"{day},,{cents},600,online" if kind == "payment" else f"{day},purchase,{cents},,"
    return f"a{account},k{number},{kind},{what}"


def asked_for(accounts: int) -> Iterator[str]:
    """Each account with a dispute and a refund asked for."""
    yield from openings(accounts)
    for at in range(accounts):
        yield f"charge a{at} c {YEAR_ON} purchase 10000"
        yield f"dispute a{at} d {YEAR_ON} 2 10000"
        yield f"payment a{at} p {YEAR_ON} 600 online 20000"
        yield f"askrefund a{at} r {YEAR_ON}"


def two_years() -> Iterator[str]:
    yield f"roll {FIRST}"
    yield f"open a o {FIRST} 5 {RATES}"
    for month in range(24):
        day = datetime.date(2024 + (month + 2) // 12, (month + 2) % 12 + 1, 6)
        place = ("purchase", "cash", "transfer")[month % 3]
        yield f"roll {day}"
        yield f"charge a c{month} {day - datetime.timedelta(days=5)} {place} 40000"
        yield f"bill a b{month} {month + 1}"
        yield f"payment a p{month} {day} 600 online 15000"


def many_balances() -> Iterator[str]:
    dollars = 1_000_000_000
    yield f"roll {FIRST}"
    yield f"open a o {FIRST} 5 1999 2499 2199 2999 1000000 10"
    for place in ("purchase", "cash", "transfer"):
        yield f"charge a {place} {FIRST} {place} {dollars}"
    yield from (f"plan a p{at} {FIRST} promo {50 * at + 1} 2026-03-05 2999" for at in range(59))
    yield from (f"charge a c{at} {FIRST} plan:{at + 5} {dollars}" for at in range(59))
    yield f"roll {FIRST + datetime.timedelta(days=5)}"
    yield "bill a b 1"


def import_beside_apply(program: str, count: int, room: str) -> Iterator[Row]:
    start, file = os.path.join(room, "start"), os.path.join(room, "rows")
    opening = os.path.join(room, "opening")
    written(partial(openings, 1000), opening)
    measured([program, start, "apply"], opening)
    lines, records = os.path.join(room, "lines"), os.path.join(room, "records")
    written(map(as_line, posts(count, 1000)), lines)
    written(lambda: (HEADER, *map(as_record, posts(count, 1000))), records)
    for command, given in (("apply", lines), ("import", records)):
        found = []
        for _ in range(3):
            shutil.copyfile(start, file)
            found.append(measured([program, file, command], given).seconds)
            os.remove(file)
        yield Row(f"{command} of {count:,} requests", min(found), "s")


def command(program: str, room: str, case: str) -> Iterator[Row]:
    """A command over a file of rows, beside their loading alone."""
    file, lines, out = (os.path.join(room, name) for name in ("rows", "lines", "out"))
    many = map(as_line, posts(9_999, 1))
    streams: dict[str, Callable[[], Iterable[str]]] = {
        "export": lambda: (*openings(1), *many), "work": partial(asked_for, 10_000),
        "repay-usual": two_years, "repay-many": many_balances}
    words = {"export": ["export", "a0"], "work": ["work"], "repay-usual": ["repay", "a", "24"],
             "repay-many": ["repay", "a", "1"]}[case]
    written(streams[case], lines)
    measured([program, file, "apply"], lines)
    runs = 50 if case.startswith("repay") else 3
    taken = least(runs, lambda: measured([program, file, *words], out=out))
    load = least(runs, lambda: measured([program, file, "apply"]))
    note = f"loading alone {1000 * load.seconds:.2f} ms; it writes {os.path.getsize(out):,} bytes"
    yield Row(case, 1000 * taken.seconds, "ms", note)


def measure(case: str, options: Options) -> Iterator[Row]:
    program = options.programs()[0]
    with memory_room() as room:
        if case == "import":
            yield from import_beside_apply(program, options.size(REQUESTS), room)
        else:
            yield from command(program, room, case)
