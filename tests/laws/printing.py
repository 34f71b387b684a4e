"""Has the program carry out request lines, and prints what the checks read."""

import os
from pathlib import Path

from tests.support.program import run

from .papers import read_requests


def printed(rows: Path, words: list[str], data: bytes = b"",
            statuses: tuple[int, ...] = (0,)) -> bytes:
    done = run([rows, *words], data)
    if done.status not in statuses:
        raise AssertionError(f"{' '.join(words)} ends with status {done.status}")
    return done.out


def print_papers(folder: Path, lines: bytes) -> None:
    """The requests, the replies, and of each account its entries and its closed cycles."""
    folder.mkdir(parents=True, exist_ok=True)
    rows = folder / "rows"
    (folder / "lines").write_bytes(lines)
    (folder / "replies").write_bytes(printed(rows, ["apply"], lines, (0, 1)))
    papers = read_requests(folder)
    for name, account in papers.accounts.items():
        (folder / f"{name}.csv").write_bytes(printed(rows, ["export", name]))
        closed = range(1, account.cycle_of(papers.today))
        (folder / f"{name}.txt").write_bytes(
            b"".join(printed(rows, ["restate", name, str(number)]) for number in closed))
    for path in folder.glob("rows*"):
        os.remove(path)
