"""What was noted of the shards that are done: a line of JSON each, in a file."""

import dataclasses
import hashlib
import json
import os
from dataclasses import dataclass
from pathlib import Path
from typing import Any

from ..measure import stop


@dataclass(frozen=True)
class Setup:
    """What a shard's figures depend on. `program` is the front of the program's SHA-256."""

    accounts: int
    months: int
    seed: int
    sample: int
    program: str


def digest_of(program: str) -> str:
    return hashlib.sha256(Path(program).read_bytes()).hexdigest()[:12]


@dataclass(frozen=True)
class Audit:
    """What was compared, or the first difference; of how many accounts, and in how many seconds."""

    compared: str
    difference: str
    accounts: int
    seconds: float


@dataclass(frozen=True)
class Result:
    """A shard that is done.

    `size` is the bytes on the disk; seconds are by phase, by the clock and of the processor; memory
    is by command, in kB; amounts are cents.
    """

    setup: Setup
    shard: int
    rows: int
    statements: int
    size: int
    starts: int
    seconds: dict[str, list[float]]
    memory: dict[str, int]
    trial: int
    balances: int
    audit: Audit | None

    @property
    def difference(self) -> str:
        """The first one that the audit found, if any."""
        return self.audit.difference if self.audit else ""

    @property
    def is_right(self) -> bool:
        return self.trial == self.balances and not self.difference

    def line(self) -> str:
        return json.dumps(dataclasses.asdict(self))


def read_line(line: str) -> Result:
    fields: dict[str, Any] = json.loads(line)
    fields["setup"] = Setup(**fields["setup"])
    fields["audit"] = Audit(**fields["audit"]) if fields["audit"] else None
    return Result(**fields)


def result_of(path: str, number: int, line: str) -> Result:
    """The result that a line of a file has."""
    try:
        return read_line(line)
    except (ValueError, TypeError, KeyError):
        stop(f"year: line {number} of {path} is no result of a shard: name another file, or remove "
             "this line")


def lines_of(path: str) -> list[str]:
    try:
        with open(path, encoding="utf-8") as file:
            return file.readlines()
    except OSError as error:
        stop(f"year: {path} can't be read: {error.strerror}")


def all_of(paths: list[str]) -> list[Result]:
    """The results of calls that differ in their seed alone, by seed and shard."""
    found, setups = dict[tuple[int, int], Result](), set[Setup]()
    for path in paths:
        for number, line in enumerate(lines_of(path), 1):
            result = result_of(path, number, line)
            setups.add(dataclasses.replace(result.setup, seed=0))
            place = (result.setup.seed, result.shard)
            if place in found:
                stop(f"year: line {number} of {path}: shard {result.shard} of seed {place[0]} "
                     "stands twice: name each file once, and give calls seeds of their own")
            found[place] = result
    if len(setups) != 1:
        stop(f"year: {', '.join(paths)}: the shards are of {len(setups)} kinds of runs, and not of "
             "one: name files of calls that differ in their seed alone")
    return [found[place] for place in sorted(found)]


class Results:
    """The results file. A line that a stop cut short is written over."""

    def __init__(self, path: str, setup: Setup) -> None:
        self.path, self.found = path, dict[int, Result]()
        for number, line in enumerate(self.whole_lines(), 1):
            result = result_of(path, number, line)
            if result.setup != setup:
                stop(f"year: line {number} of {path} is of {result.setup}, and this run of {setup}:"
                     " call it as before, or name another file by --results")
            self.found[result.shard] = result

    def whole_lines(self) -> list[str]:
        """The lines that have their line feed; what is after the last one is removed."""
        if not os.path.exists(self.path):
            return []
        with open(self.path, "r+b") as file:
            data = file.read()
            file.truncate(data.rfind(b"\n") + 1)
        return data[:data.rfind(b"\n") + 1].decode().splitlines()

    def add(self, result: Result) -> None:
        with open(self.path, "a", encoding="utf-8") as file:
            file.write(result.line() + "\n")
            file.flush()
            os.fsync(file.fileno())
        self.found[result.shard] = result

    def first(self, shards: int) -> list[Result]:
        """Those of the first so many shards, in order."""
        return [self.found[number] for number in range(shards)]
