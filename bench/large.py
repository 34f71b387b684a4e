"""What one account of up to 200,000 posts takes: the least seconds of three runs, the most memory.

Usual years, corrections in order and in any order, returns, disputes, payments of one cycle, posts
dated back, a statement of many transactions, and a load from a file with a question. Then the
memory of a million accounts that were only opened. An idle machine measures best.
"""

import os
from collections.abc import Callable, Iterator

from .measure import Options, Row, least, measured, memory_room, written
from .one_account import amended, billed, corrected, dated_back, disputed, numbered, opened
from .one_account import paid_after_a_bill, random_key, returned, usual

LONG = True
RUNS = 3
MANY = 1_000_000
STREAMS: dict[str, Callable[[], Iterator[str]]] = {
    "usual-100000": lambda: usual(100_000),
    "usual-200000": lambda: usual(200_000),
    "random-keys-200000": lambda: usual(200_000, random_key()),
    "shown-daily-200000": lambda: usual(200_000, daily=True),
    "shown-each-200000": lambda: usual(200_000, each=True),
    "amended-2400": lambda: numbered(corrected(False)),
    "amended-2400-beside-a-return": lambda: numbered(corrected(True)),
    "amended-in-any-order-120000": lambda: amended(120_000),
    "dated-back-20000": lambda: dated_back(20_000),
    "dated-back-60000": lambda: dated_back(60_000),
    "disputed-20000": lambda: disputed(20_000),
    "disputed-60000": lambda: disputed(60_000),
    "returned-20000": lambda: returned(20_000),
    "returned-60000": lambda: returned(60_000),
    "paid-after-a-bill-20000": lambda: paid_after_a_bill(20_000),
    "paid-after-a-bill-60000": lambda: paid_after_a_bill(60_000),
    "billed-20000": lambda: billed(20_000),
    "billed-60000": lambda: billed(60_000),
    "opened-1000000": lambda: opened(MANY),
}
LOAD = "load-200000-and-show"
CASES = (*STREAMS, LOAD)


def with_question(case: str) -> Iterator[str]:
    """The stream and a question behind it."""
    yield from STREAMS[case]()
    yield "show a"


def measure(case: str, options: Options) -> Iterator[Row]:
    with memory_room() as room:
        path, file = os.path.join(room, "lines"), os.path.join(room, "rows.db")
        program = options.programs()[0]
        if case == LOAD:
            written(lambda: with_question("usual-200000"), path)
            measured([program, file, "apply"], path)
            written(["show a"], path)
            lines, words = 1, [program, file, "apply"]
        else:
            lines, words = written(lambda: with_question(case), path), [program, "-", "apply"]
        runs = 1 if lines >= MANY else RUNS
        used = least(runs, lambda: measured(words, path, (0, 1)))
        note = f"{used.megabytes:.0f} MB, status {used.status}"
        yield Row(f"{case}, {lines:,} lines", used.seconds, "s", note)
