#!/usr/bin/env python3
"""Tries each must-fail edit of a crate as the gate does, and prints the processor seconds of each.

The libraries below the crate have to stand (dev/libraries.py). First the crate itself is checked
twice, from nothing and over what that kept, which is what every edit begins with; a kept folder is
given again with --seed. `rt must-fail NAME` gives the verdict. This shows what is slow, and the
first error of each edit: one that is refused only because a proof file names what is gone shows
nothing of a contract.
"""
import argparse
import os
import shutil
import sys
import tempfile
from collections.abc import Callable
from types import ModuleType
from typing import Any

import kit

FLAGS = ["--jobs", "1"]


def timed(call: Callable[[], Any]) -> tuple[Any, float]:
    """What a call gives, with the processor seconds that it took."""
    before = kit.seconds_used()
    given = call()
    return given, kit.seconds_used() - before


def seed_of(rt: ModuleType, crate: Any, folder: str) -> None:
    """Fills the folder with what a check of the crate proves, and prints its time, twice."""
    os.makedirs(folder, exist_ok=True)
    for how in ("from nothing", "over that"):
        ran, seconds = timed(lambda: rt.checked(crate, {}, FLAGS, folder))
        print(f"{seconds:7.1f}  {crate.name} {how}", flush=True)
        if ran.returncode:
            sys.exit(str(ran.stdout))


def try_edits(rt: ModuleType, crate: Any, only: list[str], seed: str, room: str) -> None:
    """Tries the edits of these names, or all, each over a copy of the seed."""
    for edit in rt.edits_of(crate)[0]:
        if only and os.path.basename(edit)[:-len(".edit")] not in only:
            continue
        over = f"{room}/over"
        kit.copied(rt, seed, over)
        (_, text), seconds = timed(lambda: rt.must_fail(crate, edit, FLAGS, over))
        print(f"{seconds:7.1f}  {text[:230]}", flush=True)
        shutil.rmtree(over)


def main() -> None:
    parser = argparse.ArgumentParser(
        description=__doc__, formatter_class=argparse.RawDescriptionHelpFormatter)
    parser.add_argument("name", metavar="NAME", help="a crate of crates.txt")
    parser.add_argument("only", nargs="*", metavar="EDIT",
                        help="some edits, by name without .edit; all where none is named")
    parser.add_argument("--seed", metavar="FOLDER",
                        help="keep what the check proves there, or begin with it")
    words = parser.parse_args()
    # before load(), which goes to the top of the repository
    seed = words.seed and os.path.abspath(words.seed)
    rt = kit.load()
    crate = kit.named(kit.crates(rt), words.name)
    room = tempfile.mkdtemp()
    try:
        seed = seed or f"{room}/seed"
        if not os.path.isdir(seed):
            seed_of(rt, crate, seed)
        try_edits(rt, crate, words.only, seed, room)
    finally:
        shutil.rmtree(room, ignore_errors=True)


if __name__ == "__main__":
    main()
