"""The program beside the independent model (audit/) on histories of one account over fifteen years.

They have posts of all kinds and corrections of all ages. Replies and statuses of the lines in three
runs over a file of rows, then the open tasks, the entries, and both statements of every cycle have
to be the same. A history takes minutes; 20 are made, with the numbers from --seed on (1 where none
is given). It ends at the first difference.
"""

import os
import time
from collections.abc import Iterator
from unittest import mock

from audit import compare, generate
from audit.days import closing, cycle_of, day_text, due
from audit.program import Program

from .measure import Options, Row, memory_room, stop

LONG = True
SEED = 1
YEARS = 15
COUNT = 20
# As often as the model's own inputs have each kind, except days that pass, which take fifteen years
# in some hundred lines.
WEIGHTS = dict(generate.WEIGHTS, roll=60, bill=8, amend=10, open=1, openvar=0, index=0, show=6,
               feerow=1, plan=2, notice=2, bad=1, repeat=2, reuse=1)


def there(day: int | None) -> int:
    """A closing or a due date, which the calendar has for these years."""
    if day is None:
        stop("histories: a day is behind the calendar")
    return day


class Writer(generate.Writer):
    """One account, whose days pass from closing to closing for the most part."""

    def line_roll(self) -> None:
        anchor = self.account(self.name() or self.names[0]).anchor
        cycle = cycle_of(anchor, self.today)
        kind = self.draw.randrange(100)
        if kind < 55:
            day = there(closing(anchor, cycle)) + self.draw.choice((1, 1, 1, 2, 5))
        elif kind < 75:
            day = there(due(anchor, max(1, cycle - 1))) + self.draw.choice((0, 1, 1, 2))
            day = max(self.today + 1, day)
        elif kind < 95:
            day = self.today + self.draw.randint(1, 9)
        elif kind < 97:
            day = self.today + self.draw.randint(40, 80)
        elif kind < 99:
            day = self.today - self.draw.randint(0, 3)
        else:
            day = self.today + 367
        self.emit(f"roll {day_text(day)}")

    def history(self) -> list[str]:
        self.first_lines()
        while not self.machine.accounts:
            self.open_account(self.names[0])
        opened = self.account(self.names[0]).anchor.opened
        while self.today < opened + YEARS * 366:
            self.step()
        return list(self.lines)


def difference(path: str, folder: str, lines: list[str]) -> tuple[str | None, int]:
    """The first difference, None where there is none, and how many views were compared."""
    model, program = compare.Model(), Program(path, os.path.join(folder, "rows.db"))
    found = compare.compare_lines(model, program, lines, compare.RUNS)
    views = [] if found else compare.views(model, program.commands())
    for words in views:
        found = found or compare.both(model, program, words)
    return found, len(views)


def measure(case: str, options: Options) -> Iterator[Row]:
    first = options.seed or SEED
    for seed in range(first, first + options.size(COUNT)):
        begun = time.monotonic()
        with memory_room() as room, mock.patch.object(generate, "WEIGHTS", WEIGHTS):
            lines = Writer(seed, 1).history()
            found, views = difference(options.programs()[0], room, lines)
        if found:
            stop(f"histories: seed {seed}: {found}")
        amends = sum(line.startswith("amend ") for line in lines)
        note = f"{len(lines):,} lines, {amends} corrections, {views} views: the same"
        yield Row(f"history {seed}", time.monotonic() - begun, "s", note)
