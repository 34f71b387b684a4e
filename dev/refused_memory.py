#!/usr/bin/env python3
"""Refuses the built program memory, one growth at a time, over a first path, an import that is sent
twice, an account with corrections and two disputes, with the rows in a file and in memory; and over
corrections of a cycle whose statement a load has put off.

Each run goes over rows that were kept before it, and its n-th growth is refused, for n = 1, 2, ..
until a run meets no refusal. Each time the status has to be 6, or, where the program does without
that memory (for the close, say), that of a run with memory, with all replies and all rows. What was
written has to be the beginning of what a run with memory writes. The rows in the file have to be
those of the lines whose replies are whole, or of one line more. The same input, sent again with
memory from its first line without a whole reply, has to give the rest of the replies and of the
rows. It prints how many growths were refused.

A growth is a call of malloc, calloc, realloc or posix_memalign by the program; a small library
(dev/refused_memory.c), which this script compiles with `cc` and has the system load before the C
library, counts them. It isn't part of the gate, and takes some minutes. Several can run side by
side, each over one path, over some of its growths, and with the rows in one place.
"""
import argparse
import csv
import os
import shutil
import sqlite3
import subprocess
import sys
import tempfile
from collections.abc import Callable
from dataclasses import dataclass, field
from typing import NoReturn

TOP = os.path.dirname(os.path.dirname(os.path.abspath(__file__)))
SOURCE = os.path.join(TOP, "dev", "refused_memory.c")
# the lines of examples/worked-days.txt up to the bills before the first correction of a charge, and
# up to the third correction
BILLED, CORRECTED = 165, 175
Rows = list[tuple[int, bytes]]


def example(name: str) -> str:
    with open(os.path.join(TOP, "examples", name), encoding="ascii") as file:
        return file.read()


def fail(text: str) -> NoReturn:
    sys.exit(f"refused_memory: {text}")


@dataclass
class Path:
    """A command over rows that were kept before it; None where it goes over the rows of the path
    before."""

    name: str
    before: str | None
    command: str
    text: str

    def rest(self, replies: int) -> str:
        """The input behind these replies."""
        if self.command == "import":
            return self.text
        return "".join(self.text.splitlines(keepends=True)[replies:])

    def posts(self) -> list[tuple[bytes, ...]]:
        """The account and the key of each line, or less than both where it isn't a post."""
        if self.command == "import":
            words = [record[:2] for record in csv.reader(self.text.splitlines())][1:]
        else:
            words = [line.split()[1:3] for line in self.text.splitlines()]
        return [tuple(word.encode() for word in pair) for pair in words]


def paths() -> tuple[Path, ...]:
    records = example("month/records.csv")
    worked = example("worked-days.txt").splitlines(keepends=True)
    billed, later = "".join(worked[:BILLED]), "".join(worked[BILLED:CORRECTED])
    return (
        Path("a first path", "", "apply", example("two-cycles.txt")),
        Path("an import", example("month/opening.txt"), "import", records),
        Path("the import, sent again", None, "import", records),
        Path("accounts with corrections", "", "apply", billed + later),
        Path("corrections after a load", billed, "apply", later),
        Path("two disputes", "", "apply", example("two-disputes.txt")),
    )


def rows_of(file: str) -> Rows:
    if not os.path.exists(file) or os.path.getsize(file) == 0:
        return []
    base = sqlite3.connect(file)
    try:
        return base.execute("SELECT seq, body FROM kept ORDER BY seq").fetchall()
    except sqlite3.OperationalError:
        return []
    finally:
        base.close()


def copied(file: str, to: str) -> None:
    for end in ("", "-wal"):
        if os.path.exists(to + end):
            os.remove(to + end)
        if os.path.exists(file + end):
            shutil.copyfile(file + end, to + end)


def post_of_row(body: bytes) -> tuple[bytes, bytes]:
    """The account and the key of a post's kept row: after format and kind, each with its length
    before it."""
    key = 3 + body[2]
    return body[3:key], body[key + 1:key + 1 + body[key]]


def renumbered(reply: bytes, first: int) -> bytes:
    """The reply where the first lines aren't sent: a bad line's reply has its number in the input.
    """
    if not reply.startswith(b"bad "):
        return reply
    word, line, name = reply.split()
    return b"%s %d %s\n" % (word, int(line) - first, name)


@dataclass
class Whole:
    """What a run with memory gives: its status, its replies, the rows, and how many of them are
    kept after each reply."""

    status: int
    replies: list[bytes]
    rows: Rows
    counts: list[int] = field(default_factory=list)

    @property
    def text(self) -> bytes:
        return b"".join(self.replies)


class Sweep:
    """Refuses growths over the paths that are wanted, in a folder of its own."""

    def __init__(self, given: argparse.Namespace, work: str) -> None:
        self.given, self.work = given, work
        self.before, self.file = os.path.join(work, "before"), os.path.join(work, "rows")
        self.library = os.path.join(work, "refuse.so")
        words = ["cc", "-O1", "-shared", "-fPIC", "-fno-builtin", "-o", self.library, SOURCE]
        subprocess.run(words, check=True)

    def run(self, file: str, command: str, text: str, refused: int = 0) -> tuple[int, bytes, int]:
        """The status, what was written, and how many growths there were where one is refused."""
        env, growths = dict(os.environ), os.path.join(self.work, "growths")
        if refused:
            env |= {"LD_PRELOAD": self.library, "REFUSED_GROWTH": str(refused), "GROWTHS": growths}
        done = subprocess.run([self.given.program, file, command], input=text.encode(),
                              capture_output=True, env=env, timeout=60)
        if not refused:
            return done.returncode, done.stdout, 0
        with open(growths, encoding="ascii") as told:
            return done.returncode, done.stdout, int(told.read())

    def whole(self, path: Path) -> Whole:
        """A run with memory. A post that was accepted before is answered as it was then, so the row
        that comes next says whether its row is new."""
        copied(self.before, self.file)
        status, written, _ = self.run(self.file, path.command, path.text)
        found = Whole(status, written.splitlines(keepends=True), rows_of(self.file))
        sent, counts = path.posts(), [len(rows_of(self.before))]
        if len(found.replies) != len(sent):
            fail(f"{path.name}: {len(sent)} lines, and {len(found.replies)} replies")
        for reply, post in zip(found.replies, sent):
            new = reply == b"ok\n"
            if reply.startswith(b"ok ") and counts[-1] < len(found.rows):
                new = post_of_row(found.rows[counts[-1]][1]) == post
            counts.append(counts[-1] + new)
        if counts[-1] != len(found.rows):
            fail(f"{path.name}: {counts[-1]} replies that keep a row, {len(found.rows)} rows")
        found.counts = counts
        return found

    def over_a_file(self, path: Path, whole: Whole, refused: int) -> bool:
        """A run of which one growth is refused: whether it met the refusal."""
        copied(self.before, self.file)
        status, written, made = self.run(self.file, path.command, path.text, refused)
        kept = rows_of(self.file)
        is_whole = written == whole.text and kept == whole.rows
        if made < refused:
            if not is_whole:
                fail(f"{path.name}: a run without a refusal gives something else")
            return False
        if status == whole.status and is_whole:
            return True
        what = f"{path.name}: growth {refused} of {made} is refused"
        if status != 6:
            fail(f"{what}, and the status is {status}")
        if not whole.text.startswith(written):
            fail(f"{what}, and the replies aren't the beginning of the others")
        told = written.count(b"\n")
        allowed = {whole.counts[told], whole.counts[min(told + 1, len(whole.replies))]}
        if len(kept) not in allowed or kept != whole.rows[: len(kept)]:
            fail(f"{what}, with {told} replies and {len(kept)} rows, wanted {sorted(allowed)}")
        self.again(path, whole, told, len(kept) > whole.counts[told], what)
        return True

    def again(self, path: Path, whole: Whole, told: int, ahead: bool, what: str) -> None:
        """The rest, with memory. A shared request whose row is kept without its reply has no key,
        so it isn't sent again."""
        is_shared = path.command == "apply" and ahead and whole.replies[told] == b"ok\n"
        first = told + 1 if is_shared else told
        status, written, _ = self.run(self.file, path.command, path.rest(first))
        wanted = whole.replies
        if path.command != "import":
            wanted = [renumbered(reply, first) for reply in wanted[first:]]
        if written != b"".join(wanted) or rows_of(self.file) != whole.rows:
            fail(f"{what}; sent again, the rest gives status {status} and something else")

    def in_memory(self, path: Path, whole: bytes, refused: int) -> bool:
        status, written, made = self.run("-", path.command, path.text, refused)
        if made < refused:
            return False
        if status != 6 or not whole.startswith(written):
            fail(f"{path.name}, rows in memory: growth {refused} is refused, status {status}")
        return True

    def counted(self, meets: Callable[[int], bool]) -> int:
        """How many growths were refused, from the first on, until a run meets no refusal or the
        last was."""
        refused = self.given.first - 1
        while refused < self.given.last and meets(refused + 1):
            refused += 1
        return int(refused - self.given.first + 1)

    def over(self, path: Path) -> int:
        """How many growths of a path were refused."""
        file = held = 0
        if self.given.rows != "memory":
            whole = self.whole(path)
            file = self.counted(lambda growth: self.over_a_file(path, whole, growth))
            print(f"{path.name}: {file} growths refused over a file of rows", flush=True)
        if self.given.rows != "file" and path.before == "":
            _, text, _ = self.run("-", path.command, path.text)
            held = self.counted(lambda growth: self.in_memory(path, text, growth))
            print(f"{path.name}: {held} growths refused with rows in memory", flush=True)
        return file + held

    def all_paths(self) -> int:
        total = 0
        for path in paths():
            if path.before is not None:
                copied(os.path.join(self.work, "none"), self.before)
                if path.before:
                    self.run(self.before, "apply", path.before)
            if self.given.path in (None, path.name):
                total += self.over(path)
            if path.command == "import":
                self.run(self.before, path.command, path.text)
        return total


def main() -> None:
    words = argparse.ArgumentParser(
        description=__doc__, formatter_class=argparse.RawDescriptionHelpFormatter)
    words.add_argument("--program", default=os.path.join(TOP, "crates/billctl/out/billctl"))
    words.add_argument("--path", help="only the path of this name")
    words.add_argument("--rows", choices=("file", "memory"), help="only with the rows there")
    words.add_argument("--first", type=int, default=1, help="the first growth that is refused")
    words.add_argument("--last", type=int, default=10**9, help="and the last one")
    given = words.parse_args()
    names = [path.name for path in paths()]
    if given.path not in [None, *names]:
        words.error("the paths are " + ", ".join(names))
    room = "/dev/shm" if os.path.isdir("/dev/shm") else None
    with tempfile.TemporaryDirectory(dir=room) as work:
        total = Sweep(given, work).all_paths()
    print(f"refused_memory: {total} growths were refused; no row is lost or made up")


if __name__ == "__main__":
    main()
