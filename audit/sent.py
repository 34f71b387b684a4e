"""Statements as they were sent, printed on their day: what a row that was changed since can't
change."""

import re
from collections.abc import Sequence
from pathlib import Path
from typing import NamedTuple

from .ledger_file import Unreadable

_FIRST_LINE = re.compile(rb"STATEMENT ([A-Za-z0-9._-]+) CYCLE ([0-9]{1,4})\n")


class Sent(NamedTuple):
    """A statement's text, with the file that has it."""
    file: Path
    account: str
    cycle: int
    text: bytes


def statements_in(path: Path) -> list[Sent]:
    """The statements of a file, one behind the other; none where it doesn't begin with one."""
    try:
        text = path.read_bytes()
    except OSError as error:
        raise Unreadable(f"{path}: {error.strerror}") from None
    begins = [m for m in _FIRST_LINE.finditer(text) if m.start() == 0 or text[m.start() - 1] == 10]
    if not begins or begins[0].start() != 0:
        return []
    ends = [m.start() for m in begins[1:]] + [len(text)]
    return [Sent(path, m[1].decode(), int(m[2]), text[m.start():end])
            for m, end in zip(begins, ends)]


def statements_below(paths: Sequence[str]) -> list[Sent]:
    """The statements of files, and of all files in folders; each path has to have one."""
    found = []
    for path in map(Path, paths):
        files = sorted(p for p in path.rglob("*") if p.is_file()) if path.is_dir() else [path]
        statements = [sent for file in files for sent in statements_in(file)]
        if not statements:
            raise Unreadable(f"{path} has no statement")
        found += statements
    return found
