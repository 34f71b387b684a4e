"""Instructions of the program over streams of usual work, as valgrind's callgrind counts them.

They don't depend on the day. Without valgrind it gives seconds, the least of three. The streams are
a year of 1,000 accounts in 200,000 lines; one of 1,000 that follow an index, in 80,000; 5,000
corrections of old posts of one account; the demonstration of 100 accounts and 60 cycles; ten
accounts of 600 cycles; 9,990 posts of one account in a year with a question behind each, without
and with monthly bills; 100,000 openings; 100 accounts of 24 closed cycles; and the rows of the
first, loaded from a file. A second program has to write the same.
"""

import os
from collections.abc import Callable, Iterator

from . import streams
from .measure import Counted, Options, Row, counted, counts_instructions, measured, memory_room
from .measure import unit, written

STREAMS: dict[str, Callable[[], Iterator[str]] | None] = {
    "ordinary": streams.ordinary,
    "variable": lambda: streams.ordinary(1_000, 80_000, True),
    "corrections": streams.corrections,
    "demo": None,
    "ages": streams.ages,
    "busy": lambda: streams.busy(False),
    "busy-bills": lambda: streams.busy(True),
    "opens": streams.opens,
    "closed": streams.closed,
    "load": streams.ordinary,
}
CASES = tuple(STREAMS)


def taken(program: str, case: str, path: str, room: str) -> Counted:
    """What a program takes for a stream."""
    if case == "demo":
        return counted([program, "-", "demo", "1", "100", "60"])
    if case != "load":
        return counted([program, "-", "apply"], path)
    file = os.path.join(room, f"{len(os.listdir(room))}.db")
    measured([program, file, "apply"], path)
    return counted([program, file, "apply"])


def measure(case: str, options: Options) -> Iterator[Row]:
    with memory_room() as room:
        path, stream = os.path.join(room, "lines"), STREAMS[case]
        count = written(stream, path) if stream else 0
        ours, *others = [taken(program, case, path, room) for program in options.programs()]
    note = "" if counts_instructions() else "no valgrind here: seconds, and no instructions"
    for other in others:
        same = "the same output" if other.wrote == ours.wrote else "ANOTHER OUTPUT"
        note = f"beside {other.taken:,.1f}, times {ours.taken / other.taken:.3f}, {same}"
    yield Row(f"{case}, {count:,} lines" if count else case, ours.taken, unit(), note)
