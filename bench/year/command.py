"""The command `python3 -m bench year`: its options, and the shards one after the other."""

import argparse
import contextlib
import os
import shutil
import signal
import sys
import tempfile
import time
from collections.abc import Iterator
from pathlib import Path

import bench.year
from tests.support.program import PROGRAM, not_built

from ..measure import stop
from .calendar import MOST_MONTHS
from .results import Result, Results, Setup, all_of, digest_of
from .shard import carried_out, say
from .table import report

RESULTS = "bench-year.jsonl"
SHARDS, ACCOUNTS, MONTHS, SAMPLE = 50, 20_000, 12, 200


def number(text: str) -> int:
    """A number from 1 on."""
    found = int(text)
    if found < 1:
        raise ValueError
    return found


def options(words: list[str]) -> argparse.Namespace:
    parser = argparse.ArgumentParser(
        prog="python3 -m bench year", description=bench.year.__doc__,
        formatter_class=argparse.RawDescriptionHelpFormatter)
    parser.add_argument("--shards", type=number, default=SHARDS, metavar="N")
    parser.add_argument("--accounts", type=number, default=ACCOUNTS, metavar="N",
                        help="of a shard")
    parser.add_argument("--months", type=number, default=MONTHS, metavar="N")
    parser.add_argument("--seed", type=int, default=1, metavar="N", help="of what is drawn")
    parser.add_argument("--sample", type=number, default=SAMPLE, metavar="N",
                        help="accounts of an audited shard that are audited")
    parser.add_argument("--results", default=RESULTS, metavar="FILE",
                        help=f"a line for each shard that is done; otherwise {RESULTS}")
    parser.add_argument("--folder", metavar="DIR", help="where the shards' files are, whose disk "
                        "decides what a commit takes; otherwise a new temporary folder")
    parser.add_argument("--table", nargs="+", metavar="FILE",
                        help="runs nothing, and prints one table of the results of several calls, "
                        "which differ in their seed alone")
    given = parser.parse_args(words)
    if given.months > MOST_MONTHS:
        parser.error(f"--months {given.months} is more than {MOST_MONTHS}")
    return given


@contextlib.contextmanager
def place_of(folder: str | None) -> Iterator[Path]:
    """Where the shards' folders are. One that was made here goes again, if nothing is in it."""
    if folder is not None:
        os.makedirs(folder, exist_ok=True)
        yield Path(folder)
        return
    place = Path(tempfile.mkdtemp(prefix="billctl-year-"))
    try:
        yield place
    finally:
        with contextlib.suppress(OSError):
            place.rmdir()


def one_shard(at: int, setup: Setup, place: Path) -> Result:
    """A shard from nothing. Its files go, also those of a stopped run, unless it disagrees."""
    room = place / f"billctl-year-{at}"
    shutil.rmtree(room, ignore_errors=True)
    room.mkdir()
    is_kept = False
    try:
        result = carried_out(at, setup, room)
        is_kept = not result.is_right
        if is_kept:
            say(f"shard {at} disagrees; its files stay in {room}")
        return result
    finally:
        if not is_kept:
            shutil.rmtree(room)


def all_shards(shards: int, setup: Setup, results: Results, place: Path) -> None:
    begun, made = time.monotonic(), 0
    for at in range(shards):
        if at in results.found:
            continue
        results.add(one_shard(at, setup, place))
        made += 1
        left = sum(later not in results.found for later in range(at + 1, shards))
        minutes = (time.monotonic() - begun) / made * left / 60
        say(f"shard {at} is done; {left} are left, about {minutes:.0f} minutes")


def printed(found: list[Result]) -> int:
    """Prints what was found of all shards, and gives the status."""
    print("\n".join(report(found)))
    return 0 if all(result.is_right for result in found) else 1


def main(words: list[str]) -> int:
    given = options(words)
    if given.table:
        return printed(all_of(given.table))
    if not_built():
        stop(not_built())
    setup = Setup(given.accounts, given.months, given.seed, given.sample, digest_of(PROGRAM))
    results = Results(given.results, setup)
    if results.found:
        say(f"done already by {given.results}: shards {sorted(results.found)}")
    signal.signal(signal.SIGTERM, lambda *_: sys.exit(1))
    try:
        with place_of(given.folder) as place:
            all_shards(given.shards, setup, results, place)
    except KeyboardInterrupt:
        stop("year: stopped; the same call continues after the last whole shard")
    return printed(results.first(given.shards))
