"""What the measures share: rows of the table, options, and runs that are timed or counted."""

import hashlib
import os
import re
import shutil
import subprocess
import sys
import tempfile
import time
from collections.abc import Callable, Iterable, Iterator, Sequence
from contextlib import contextmanager
from dataclasses import dataclass
from typing import NamedTuple, NoReturn

from tests.support.program import PROGRAM, TOP

MEMORY = "/dev/shm"  # a disk of memory, so that no commit waits for a disk
CALLGRIND = ("valgrind", "--tool=callgrind", "--callgrind-out-file=/dev/null")
MILLION = 1_000_000


class Row(NamedTuple):
    """A line of the table."""

    case: str
    figure: float
    unit: str
    note: str = ""


class Missing(Exception):
    """What a measure needs and isn't there."""


@dataclass(frozen=True)
class Options:
    """What the command says beside the names of measures."""

    count: int | None = None
    seed: int = 0
    folder: str | None = None
    beside: str | None = None

    def programs(self) -> list[str]:
        return [PROGRAM, *([self.beside] if self.beside else [])]

    def size(self, usual: int) -> int:
        return self.count or usual


class Used(NamedTuple):
    """What a run took."""

    seconds: float
    megabytes: float
    computed: float  # seconds of a processor
    status: int


def stop(text: str) -> NoReturn:
    sys.exit(f"bench: {text}")


def needs(*commands: str) -> None:
    """Says which command isn't installed."""
    for command in commands:
        if not shutil.which(command):
            raise Missing(f"{command} isn't installed")


@contextmanager
def room_in(folder: str | None) -> Iterator[str]:
    """A folder that goes again: there, or where temporary files are. The medium decides what a
    commit takes."""
    with tempfile.TemporaryDirectory(dir=folder) as room:
        yield room


def memory_room() -> "tempfile.TemporaryDirectory[str]":
    return tempfile.TemporaryDirectory(dir=MEMORY if os.path.isdir(MEMORY) else None)


def written(lines: Iterable[str] | Callable[[], Iterable[str]], path: str) -> int:
    """Writes lines into a file, and counts them, by a process of its own, so that this one stays
    small."""
    sys.stdout.flush()
    child = os.fork()
    if child == 0:
        count = 0
        with open(path, "w", encoding="ascii") as out:
            for count, line in enumerate(lines() if callable(lines) else lines, 1):
                out.write(line + "\n")
        with open(f"{path}.count", "w", encoding="ascii") as told:
            told.write(str(count))
        os._exit(0)
    if os.waitpid(child, 0)[1] != 0:
        stop(f"{path} can't be written: is there room on its disk?")
    with open(f"{path}.count", encoding="ascii") as counted:
        return int(counted.read())


def measured(words: Sequence[str], given: str = os.devnull, statuses: tuple[int, ...] = (0,),
             out: str = os.devnull) -> Used:
    """One run, whose input is a file."""
    alone = [sys.executable, "-I", "-S", str(TOP / "bench" / "alone.py")]
    done = subprocess.run([*alone, given, out, *words], stdout=subprocess.PIPE, text=True)
    if done.returncode != 0:
        stop(f"{' '.join(words)} isn't run")
    seconds, kilobytes, computed, status = done.stdout.split()
    if int(status) not in statuses:
        stop(f"{' '.join(words)} ends with {status}")
    return Used(float(seconds), int(kilobytes) / 1024, float(computed), int(status))


def least(runs: int, call: Callable[[], Used]) -> Used:
    """The least seconds and the most memory of several runs."""
    found = [call() for _ in range(runs)]
    quick = min(found)
    return quick._replace(megabytes=max(used.megabytes for used in found))


def counts_instructions() -> bool:
    return shutil.which(CALLGRIND[0]) is not None


class Counted(NamedTuple):
    """The checksum of what a run wrote, and its instructions, or seconds without valgrind."""

    wrote: str
    taken: float


def counted(words: Sequence[str], given: str = os.devnull) -> Counted:
    """Instructions as callgrind counts them, which don't depend on the day; without valgrind the
    least seconds of three runs."""
    found = []
    tool = CALLGRIND if counts_instructions() else ()
    for _ in range(1 if tool else 3):
        begun = time.monotonic()
        with open(given, "rb") as source:
            done = subprocess.run([*tool, *words], stdin=source, capture_output=True)
        taken = time.monotonic() - begun
        if done.returncode not in (0, 1):
            stop(f"{' '.join(words)} ends with {done.returncode}")
        if tool:
            collected = re.search(rb"Collected : (\d+)", done.stderr)
            if not collected:
                stop(f"valgrind counts nothing: {done.stderr[-200:]!r}")
            taken = int(collected[1]) / MILLION
        found.append(Counted(hashlib.sha256(done.stdout).hexdigest(), taken))
    return min(found, key=lambda run: run.taken)


def unit() -> str:
    return "million instructions" if counts_instructions() else "s"
