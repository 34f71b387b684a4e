"""The most memory of a run over 1,000 accounts of 24 billed cycles, by the posts in each.

Also of 100,000 accounts that were only opened, with the seconds of each run. Rows are in memory.
"""

import os
from collections.abc import Callable, Iterator

from .measure import Options, Row, measured, memory_room, written
from .streams import cycled, opens

# case -> how many accounts, and their lines
STREAMS: dict[str, tuple[int, Callable[[int], Iterator[str]]]] = {
    "3-posts": (1_000, lambda accounts: cycled(accounts, 3)),
    "10-posts": (1_000, lambda accounts: cycled(accounts, 10)),
    "opens": (100_000, opens),
}
CASES = tuple(STREAMS)


def measure(case: str, options: Options) -> Iterator[Row]:
    usual, stream = STREAMS[case]
    accounts = options.size(usual)
    with memory_room() as room:
        path = os.path.join(room, "lines")
        lines = written(lambda: stream(accounts), path)
        for program in options.programs():
            used = measured([program, "-", "apply"], path)
            note = f"{used.seconds:.2f} s, {used.megabytes * 1e6 / lines:.0f} bytes a line"
            yield Row(f"{case}, {accounts:,} accounts, {lines:,} lines", used.megabytes, "MB", note)
