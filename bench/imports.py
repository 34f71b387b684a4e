"""What an import into a file takes: 200,000 charges of 1,000 accounts, read as CSV.

Its rows wait for common commits. It gives the records a second of the least of three runs; in the
note the part of the time in which the program computed, the rest being waits for the disk, and how
many commits it waited for where strace is there. A second program runs in turn, and has to keep the
same rows. The disk of --folder decides.
"""

import hashlib
import os
import shutil
from collections.abc import Iterator

from tests.support.requests import HEADER
from tests.support.rows import rows_of

from .measure import Options, Row, Used, measured, room_in, stop, written
from .streams import RATES

ACCOUNTS = 1000
RECORDS = 200_000
RUNS = 3
SYNCS = "fsync,fdatasync"


def opening() -> Iterator[str]:
    yield "roll 2024-03-01"
    yield from (f"open a{at} o 2024-03-01 5 {RATES}" for at in range(ACCOUNTS))


def records(count: int) -> Iterator[str]:
    yield HEADER
    for number in range(count):
        cents = 100 + number % 9000
        yield f"a{number % ACCOUNTS},c{number},charge,2024-03-01,purchase,{cents},,"


def digest(file: str) -> str:
    return hashlib.sha256(repr(rows_of(file)).encode()).hexdigest()


def commits(program: str, room: str, given: str) -> str:
    """How often it waited for the disk."""
    if not shutil.which("strace"):
        return "waits for the disk not counted (no strace)"
    told = os.path.join(room, "told")
    file = shutil.copyfile(os.path.join(room, "opened"), os.path.join(room, "traced"))
    strace = ["strace", "-f", "-e", f"trace={SYNCS}", "-o", told]
    measured([*strace, program, file, "import"], given)
    with open(told, encoding="utf-8") as lines:
        return f"{sum('sync(' in line for line in lines)} waits for the disk"


def measure(case: str, options: Options) -> Iterator[Row]:
    count, programs = options.size(RECORDS), options.programs()
    with room_in(options.folder) as room:
        opened, given = os.path.join(room, "opened"), os.path.join(room, "records")
        written(opening, os.path.join(room, "opening"))
        written(lambda: records(count), given)
        measured([programs[0], opened, "apply"], os.path.join(room, "opening"))
        runs: dict[str, list[Used]] = {program: [] for program in programs}
        kept = set()
        for turn in range(RUNS):
            for program in programs:
                file = shutil.copyfile(opened, os.path.join(room, f"rows{turn}"))
                runs[program].append(measured([program, file, "import"], given))
                kept.add(digest(file))
        if len(kept) != 1:
            stop("imports: the programs keep other rows")
        for program in programs:
            quick = min(runs[program])
            computing = f"{100 * quick.computed / quick.seconds:.0f}% of it computing"
            note = f"{quick.seconds:.2f} s, {computing}, {commits(program, room, given)}"
            yield Row(f"{count:,} records", count / quick.seconds, "records/s", note)
