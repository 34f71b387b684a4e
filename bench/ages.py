"""How the time of `apply` grows with the age of accounts, rows in memory.

Ten accounts over 12, 60, 240 and 600 cycles, with a bill, a charge, a payment and a question a
month for each: seconds, the least of three.
"""

import os
from collections.abc import Iterator

from .measure import Options, Row, least, measured, memory_room, written
from .streams import ages

CASES = ("12", "60", "240", "600")


def measure(case: str, options: Options) -> Iterator[Row]:
    with memory_room() as room:
        path = os.path.join(room, "lines")
        lines = written(lambda: ages(int(case)), path)
        for program in options.programs():
            used = least(3, lambda: measured([program, "-", "apply"], path))
            yield Row(f"{case} cycles, {lines:,} lines", used.seconds, "s")
