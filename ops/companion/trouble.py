"""What ends a word early, with the message and the exit status; and what is said on the way."""

import sys
import time

# Exit statuses of the companion. Those from 3 to 9 are billctl's, which the help of a word tells.
DONE = 0
FOUND = 1
WORDS = 2
CANNOT_OPEN = 5
DAMAGED = 8
GUARDED = 10
LOCKED = 11
OWN_FILES = 12

# Seconds between two lines of progress.
BETWEEN = 2.0


class Trouble(Exception):
    """A word can't go on. Nothing more is done; `status` is its exit status."""

    def __init__(self, message: str, status: int) -> None:
        super().__init__(message)
        self.message = message
        self.status = status


def say(text: str) -> None:
    """A line on standard error."""
    print(text, file=sys.stderr, flush=True)


def counted(number: int, what: str) -> str:
    """A number with what it counts, as `1 line` and `2 lines`."""
    return f"{number} {what}" if number == 1 else f"{number} {what}s"


class Progress:
    """Says how far long work is, at most once in two seconds."""

    def __init__(self, what: str, whole: int) -> None:
        self.what = what
        self.whole = whole
        self.said = time.monotonic()

    def at(self, done: int) -> None:
        now = time.monotonic()
        if now - self.said >= BETWEEN:
            self.said = now
            say(f"{self.what}: {done} of {self.whole}")
