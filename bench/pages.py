"""A night of 2,000 statements as JSON and HTML by `audit statements`, beside `repay` for each.

A ledger of some 188,000 rows: accounts of thirteen months, each with a promotional plan, a late
credit, and five charges, a payment and a bill a month, all closing on one day. The call that writes
the statements of the last day in two forms with their manifest is measured with all that it starts;
`repay` is asked for twenty of the statements, each with a load of all rows, and that is multiplied.
The call wants the repository as its folder.
"""

import csv
import os
import sys
from collections.abc import Iterator
from datetime import date

from .measure import Options, Row, Used, measured, memory_room, stop, written
from .streams import FEES, RATES

ACCOUNTS = 2000
MONTHS = 13
SAMPLE = 20
FIRST = date(2024, 1, 6)
CASES = ("all",)


def day_in(month: int, day: int) -> date:
    return date(2024 + month // 12, month % 12 + 1, day)


def name_of(at: int) -> str:
    return f"card-{at:04}"


def month_of(month: int, accounts: int) -> Iterator[str]:
    """The charges and the payment of a cycle, and its bill on the day after the closing."""
    closed = day_in(month + 1, 6)
    for at in range(accounts):
        name = name_of(at)
        for number in range(5):
            where = "plan:2" if number == 4 and month < 2 else \
                "cash" if (at + number + month) % 11 == 0 else "purchase"
            day = day_in(month, 8 + 4 * number)
            cents = 500 + (at * 31 + number * 1777 + month * 613) % 9000
            yield f"charge {name} c{month}-{number} {day} {where} {cents}"
        cents = 2500 + (at * 7 + month * 977) % 20_000
        yield f"payment {name} p{month} {day_in(month, 28)} 600 online {cents}"
    yield f"roll {closed}"
    yield from (f"bill {name_of(at)} b{month} {month + 1}" for at in range(accounts))


def ledger(accounts: int) -> Iterator[str]:
    yield from (FEES, f"roll {FIRST}")
    yield from (f"open {name_of(at)} o {FIRST} 5 {RATES}" for at in range(accounts))
    yield from (f"plan {name_of(at)} plan {FIRST} promo 0 2025-03-05 1999"
                for at in range(accounts))
    for month in range(MONTHS):
        yield f"roll {day_in(month, 28)}"
        yield from month_of(month, accounts)
        if month == MONTHS - 2:
            yield from (f"credit {name_of(at)} back {day_in(month, 10)} purchase 400"
                        for at in range(accounts))


def require_whole(folder: str, accounts: int) -> None:
    """Stops where the manifest isn't that of all statements in both forms."""
    with open(os.path.join(folder, "manifest.csv"), encoding="ascii", newline="") as file:
        total = list(csv.reader(file))[-1]
    if total[:3] != ["total", str(accounts), str(2 * accounts)]:
        stop(f"pages: the manifest ends with {','.join(total)}")


def asked(program: str, file: str, accounts: int) -> list[Used]:
    """`repay` of some of the statements, a load of all rows for each."""
    step = max(1, accounts // SAMPLE)
    return [measured([program, file, "repay", name_of(at), str(MONTHS)])
            for at in range(0, accounts, step)]


def measure(case: str, options: Options) -> Iterator[Row]:
    program, accounts = options.programs()[0], options.size(ACCOUNTS)
    day = day_in(MONTHS, 6)
    with memory_room() as room:
        lines, file, folder = (os.path.join(room, name) for name in ("lines", "rows.db", "made"))
        rows = written(lambda: ledger(accounts), lines)
        measured([program, file, "apply"], lines)
        made = measured([sys.executable, "-m", "audit", "statements", file, str(day), folder,
                         "--form", "json", "--form", "html", "--program", program])
        require_whole(folder, accounts)
        repaid = asked(program, file, accounts)
    each = sum(used.computed for used in repaid) / len(repaid)
    yield Row(f"{accounts:,} statements as JSON and HTML", made.computed, "s of a processor",
              f"{rows:,} rows; {made.seconds:.0f} s, {made.megabytes:.0f} MB in a process at most")
    yield Row(f"repay for each of {accounts:,}", each * accounts, "s of a processor",
              f"{len(repaid)} asked: {each:.2f} s, "
              f"{max(used.megabytes for used in repaid):.0f} MB")
    yield Row("statements, of what repay takes", made.computed / (each * accounts), "part")
