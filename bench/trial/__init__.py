"""What a trial balance costs: `trial` beside `apply` over the same lines, and single corrections.

Over 200,000 lines of 1,000 accounts and a year, with rows in memory: instructions, or seconds
without valgrind, and the most memory. The other cases give microseconds of one correction in a
ledger that keeps totals, by the days that lie behind the corrected one, by the accounts, and by the
age of the account, which has a charge a day; and with a question of its account behind it. A
program of Rattle (bench/trial/timer.txt) times them, which is built without a proof over the crates
that it needs: it takes some minutes and the command rt.
"""

import os
import subprocess
from collections.abc import Iterator

from ..measure import Options, Row, counted, least, measured, memory_room, room_in, unit, written
from ..streams import FEES, FIRST, TERMS, later, ordinary
from ..timers import build

LONG = True
CASES = ("balance", "corrections")
ACCOUNTS, LINES = 1_000, 200_000
CRATES = ["card_desk", "card_events", "card_lines", "card_ports", "card_trial"]
COMMANDS = (("apply",), ("trial", "2011-01-01", "2099-12-31"))
# accounts, days, and how many days back the corrections are
AGED = ((1, 1_825, (0, 30, 365, 1_825)), (1_000, 365, (0, 30, 365)), (100_000, 30, (0, 30)),
        (1, 3_650, (0, 30, 3_650)))


def balance(program: str, lines: int) -> Iterator[Row]:
    with memory_room() as room:
        path, first = os.path.join(room, "lines"), 0.0
        written(lambda: ordinary(ACCOUNTS, lines), path)
        for words in COMMANDS:
            used = least(3, lambda: measured([program, "-", *words], path, (0, 1)))
            taken = counted([program, "-", *words], path).taken
            first = first or taken
            note = f"times {taken / first:.3f}, {used.seconds:.2f} s, {used.megabytes:.1f} MB"
            yield Row(f"{words[0]} of {lines:,} lines", taken, unit(), note)


def aged(accounts: int, days: int, corrected: tuple[int, ...]) -> Iterator[str]:
    """Accounts of which the first has a charge a day, and then has those of some days corrected,
    each twice."""
    yield from (FEES, f"roll {FIRST}")
    for at in range(accounts):
        yield f"open a{at} o {FIRST} {TERMS}"
        yield f"charge a{at} c {FIRST} purchase 1000"
    for number in range(1, days + 1):
        yield f"roll {later(number)}"
        yield f"charge a0 c{number} {later(number)} purchase 1000"
    for turn in range(2):
        for back in corrected:
            day = max(days - back, 1)
            yield f"!amend a0 m{turn}-{back} {day + 2} {later(day)} {900 + turn}"


def corrections(timer: str, room: str) -> Iterator[Row]:
    path = os.path.join(room, "lines")
    for accounts, days, corrected in AGED:
        written(lambda: aged(accounts, days, corrected), path)
        with open(path, "rb") as source:
            done = subprocess.run([timer], stdin=source, stdout=subprocess.PIPE, check=True)
        told = [tuple(map(int, line.split())) for line in done.stdout.splitlines() if line]
        for back, one, two in zip(corrected, told, told[len(corrected):]):
            case = f"{accounts:,} accounts, {days:,} days, {back:,} days back"
            note = f"with a question {min(one[1], two[1])}"
            yield Row(case, min(one[0], two[0]), "microseconds", note)


def measure(case: str, options: Options) -> Iterator[Row]:
    if case == "balance":
        yield from balance(options.programs()[0], options.size(LINES))
        return
    with room_in(None) as room:
        yield from corrections(build("trial", CRATES, room), room)
