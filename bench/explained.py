"""Explanations (`python3 -m audit explain`): one cycle of an account of 24 cycles, issued and
recomputed; and all cycles of 1,000 accounts beside `python3 -m audit` over the same file.

    python3 -m bench explained [--count ACCOUNTS]

Seconds are those of a processor, with the program's own.
"""

import subprocess
import sys
from collections.abc import Iterator
from pathlib import Path

from audit.demo import demo_requests
from audit.lines import line_text
from tests.support.program import PROGRAM, TOP

from .measure import Options, Row, measured, memory_room, stop, written

LONG = True
CASES = ("cycle", "all")
ACCOUNTS, CYCLES, LAST = 1000, 6, 24
MOST_SECONDS, MOST_TIMES = 1.0, 1.5


def lines(accounts: int, cycles: int) -> Iterator[str]:
    return (line_text(request) for request in demo_requests(1, accounts, cycles))


def ledger(room: str, accounts: int, cycles: int) -> str:
    """A file that the program wrote."""
    path = f"{room}/rows.db"
    written(lines(accounts, cycles), f"{room}/lines")
    with open(f"{room}/lines", "rb") as given:
        subprocess.run([PROGRAM, path, "apply"], stdin=given, stdout=subprocess.DEVNULL,
                       check=False)
    if not Path(path).exists():
        stop(f"{PROGRAM} wrote no file")
    return path


def audit(*words: str) -> float:
    """The processor seconds of a call of the model's command."""
    command = ("import runpy, sys; sys.path.insert(0, sys.argv.pop(1)); "
               "runpy.run_module('audit', run_name='__main__', alter_sys=True)")
    return measured([sys.executable, "-c", command, str(TOP), *words, "--program",
                     PROGRAM]).computed


def measure(case: str, options: Options) -> Iterator[Row]:
    with memory_room() as room:
        if case == "cycle":
            path = ledger(room, 1, LAST)
            ways: dict[str, list[str]] = {"issued": ["--issued"], "recomputed": []}
            for said, more in ways.items():
                seconds = audit("explain", path, "d1", str(LAST), "--form", "json", *more)
                yield Row(f"cycle {LAST} of {LAST}, {said}", seconds, "s of a processor",
                          f"at most {MOST_SECONDS}")
            return
        accounts = options.size(ACCOUNTS)
        path = ledger(room, accounts, CYCLES)
        plain = audit(path, "--quiet")
        yield Row(f"audit, {accounts} accounts, {CYCLES} cycles", plain, "s of a processor")
        explained = audit("explain", path)
        yield Row("audit explain, the same", explained, "s of a processor",
                  f"{explained / plain:.2f} times as much, at most {MOST_TIMES}")
