"""Microseconds of the two calls of `card_repay`, each the least of three runs of twenty.

For 64 balances of ten million million dollars in all, the most that they take, for three of 400.00,
and for one of 1,000.00. A program of Rattle (bench/repay/timer.txt) times them, which is built
without a proof over the two crates that it needs: it takes some minutes and the command rt.
"""

import re
import subprocess
from collections.abc import Iterator

from ..measure import Options, Row, room_in
from ..timers import build

LONG = True
CRATES = ["card_events", "card_repay"]


def measure(case: str, options: Options) -> Iterator[Row]:
    with room_in(None) as room:
        timer = build("repay", CRATES, room)
        done = subprocess.run([timer], stdout=subprocess.PIPE, text=True, check=True)
    for line in done.stdout.splitlines():
        what, _, told = line.partition(": ")
        for call, figure in re.findall(r"(\w+) (\d+) us", told):
            yield Row(f"{call}, {what}", float(figure), "microseconds")
