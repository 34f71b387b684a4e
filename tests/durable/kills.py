"""Kills of runs over a file of rows. Of six kills two hit `apply`, one `import`, one an `import`
whose replies nobody reads, and two `serve` with four clients at it.

A run of `apply` or `import` makes the same system calls each time, but for a few by which it asks
for memory, so it is killed before a call of a number that the seed gives; the second one of `apply`
and `serve` are killed at a moment that the seed gives. Each time the file then loads, every reply
that was written whole has its row, no more rows are there than may wait with their replies (of
`serve` one), and a stock SQLite reads the same rows and finds the file sound. What was sent is then
sent again, and gets its old numbers.
"""

import contextlib
import fcntl
import os
import random
import struct
import subprocess
import tempfile
import termios
import time
from collections.abc import Callable
from concurrent.futures import Future, ThreadPoolExecutor
from typing import NamedTuple

from ..support.program import apply, as_input, kill_after, run_to_call, start
from .expected import WAITING, Expected, Outcome, fail, sound_rows, was_killed
from .posts import killed_server
from .requests import IMPORT, LINES, OPENING

PAGE = 4096
SPARE = 8  # calls that one run may make less than another: where memory begins is random
SERVED = 5  # seconds at most of a server, also where a busy machine takes longer for a whole run


class Kill(NamedTuple):
    """A kill: its number, how far the run comes, from 0 to 1, and the folder that it has."""

    number: int
    after: float
    room: str

    @property
    def file(self) -> str:
        return os.path.join(self.room, "rows")


def written_whole(path: str) -> list[str]:
    """The replies that were written whole."""
    with open(path, encoding="ascii", newline="\n") as replies:
        return [line[:-1] for line in replies if line.endswith("\n")]


class Kills:
    """The runs that are killed, and what they are held against."""

    def __init__(self, expected: Expected, room: str) -> None:
        self.expected, self.room = expected, room
        self.calls = {
            "apply": self._calls("apply", OPENING + LINES, os.path.join(room, "counted")),
            "import": self._calls("import", IMPORT, expected.begun(room)),
        }

    def _calls(self, command: str, lines: list[str], file: str) -> int:
        """How many system calls a whole run makes; 0 where this system shows none."""
        source = os.path.join(self.room, "source")
        with open(source, "wb") as out:
            out.write(as_input(lines))
        with open(source, "rb") as given, open(os.devnull, "wb") as sink:
            made, status = run_to_call([file, command], None, given=given, out=sink)
        if status != 0:
            fail(f"{command}, whose system calls are counted, ends with {status}")
        return made

    def killed(self, kill: Kill, command: str, lines: list[str], by_call: bool) -> list[str]:
        """The replies that a killed run wrote whole."""
        source, replies = os.path.join(kill.room, "source"), os.path.join(kill.room, "replies")
        with open(source, "wb") as out:
            out.write(as_input(lines))
        words = [kill.file, command]
        with open(source, "rb") as given, open(replies, "wb") as sink:
            if by_call and self.calls[command]:
                call = 1 + int(kill.after * max(0, self.calls[command] - SPARE))
                _, status = run_to_call(words, call, given=given, out=sink)
                was_killed(status)
            else:
                with start(words, given=given, out=sink) as running:
                    kill_after(running, kill.after * self.expected.seconds)
        return written_whole(replies)

    def apply_by_call(self, kill: Kill) -> Outcome:
        outcome, has_rows = self._apply(kill, True)
        lines = OPENING[1:] + LINES if has_rows else OPENING + LINES
        again = apply(kill.file, lines)
        is_whole = again.lines == self.expected.replies[1 if has_rows else 0:]
        if again.status != 0 or not is_whole or sound_rows(kill.file, 1) != self.expected.rows:
            fail("the file doesn't get the same rows as one that was never killed")
        return outcome

    def apply_by_moment(self, kill: Kill) -> Outcome:
        return self._apply(kill, False)[0]

    def _apply(self, kill: Kill, by_call: bool) -> tuple[Outcome, bool]:
        """What a killed run leaves, and whether it has a row."""
        expected, lines = self.expected, OPENING + LINES
        replies = self.killed(kill, "apply", lines, by_call)
        count = len(replies)
        if replies != expected.replies[:count]:
            fail("the replies aren't those of a run that isn't killed")
        rows = sound_rows(kill.file, count)
        expected.has_rows(count, rows, WAITING)
        # `roll` has no key, so it isn't sent again
        again = apply(kill.file, lines[1:count])
        if again.status != 0 or again.lines != expected.replies[1:count]:
            fail(f"sent again, the lines end with {again.status}")
        if rows and sound_rows(kill.file, count) != rows:
            fail("lines that were sent again changed the rows")
        return Outcome(count, len(rows) - count), bool(rows)

    def importing(self, kill: Kill) -> Outcome:
        self.expected.begun(kill.room)
        replies = self.killed(kill, "import", IMPORT, True)
        return self.expected.imported(kill.room, replies)

    def unread_import(self, kill: Kill) -> Outcome:
        """Its output holds a page and nobody reads it. It is killed once that is full."""
        taken, given = os.pipe()
        fcntl.fcntl(given, fcntl.F_SETPIPE_SZ, PAGE)
        with start([self.expected.begun(kill.room), "import"], out=given) as running:
            os.close(given)
            self._fills(running, taken)
            running.kill()
        was_killed(running.returncode)
        with os.fdopen(taken, "rb") as written:
            replies = [line[:-1].decode() for line in written if line.endswith(b"\n")]
        outcome = self.expected.imported(kill.room, replies)
        if not outcome.ahead:
            fail(f"{outcome.replies} replies that nobody read, and no row more")
        return outcome

    @staticmethod
    def _fills(running: "subprocess.Popen[bytes]", taken: int) -> None:
        """Gives a run its input, and waits until its output is full."""
        if running.stdin is None:
            fail("the run has no input")
        try:
            with contextlib.closing(running.stdin) as source:
                source.write(as_input(IMPORT))
        except BrokenPipeError:
            fail("import ends before its output is read")
        for _ in range(600):
            if struct.unpack("i", fcntl.ioctl(taken, termios.FIONREAD, bytes(4)))[0] == PAGE:
                return
            time.sleep(0.05)

    def serving(self, kill: Kill) -> Outcome:
        file = self.expected.begun(kill.room)
        return killed_server(self.expected, file, kill.after * min(SERVED, self.expected.seconds))

    def ways(self) -> tuple[Callable[[Kill], Outcome], ...]:
        return (self.apply_by_call, self.importing, self.serving,
                self.apply_by_moment, self.unread_import, self.serving)

    def one(self, number: int, after: float) -> Outcome:
        """One kill, in a folder of its own."""
        way = self.ways()[number % len(self.ways())]
        with tempfile.TemporaryDirectory(dir=self.room) as room:
            return way(Kill(number, after, room))

    def name(self, number: int, after: float) -> str:
        """What a failure tells of a kill: enough to make it again."""
        way = self.ways()[number % len(self.ways())].__name__
        return f"kill {number}, {way}, after {after:.6f} of the run"

    def run(self, seed: int, count: int, lanes: int) -> list[tuple[str, Future[Outcome]]]:
        """So many kills, several at once: the name of each, and what came of it."""
        drawn = random.Random(seed)
        moments = [drawn.uniform(0, 1) for _ in range(count)]
        with ThreadPoolExecutor(lanes) as pool:
            return [(self.name(number, after), pool.submit(self.one, number, after))
                    for number, after in enumerate(moments)]
