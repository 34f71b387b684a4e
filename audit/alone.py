"""The program over the rows of one account and those that all share, in a file of their own.

What is told of an account stays the same without the others.  The repayment of
an issued statement is asked so: the server doesn't tell it and has the
ledger's file meanwhile, and a call of its own loads no more rows than it needs.
"""

import contextlib
import tempfile
from collections.abc import Iterator
from pathlib import Path

from .ledger_file import write
from .program import Program
from .rows import decode


class Alone:
    """The rows of a ledger by account; `path` is the program's."""

    def __init__(self, kept: list[tuple[int, bytes]], path: str):
        self.bodies, self.path = [body for _, body in kept], path
        self.places: dict[str | None, list[int]] = {}  # of the shared rows by None
        for place, body in enumerate(self.bodies):
            request = decode(body)
            if request is None:
                raise ValueError(f"row {place + 1} is no request: check the rows first")
            self.places.setdefault(request.account, []).append(place)

    @contextlib.contextmanager
    def program(self, account: str) -> Iterator[Program]:
        """The program over a file with this account alone."""
        places = sorted(self.places.get(None, []) + self.places.get(account, []))
        with tempfile.TemporaryDirectory(prefix="audit-") as folder:
            file = Path(folder) / "account.db"
            write(file, [self.bodies[place] for place in places])
            yield Program(self.path, str(file))
