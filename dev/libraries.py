#!/usr/bin/env python3
"""Proves and builds libraries of this checkout as the gate does, or takes those proved already.

`rt check` needs the libraries below its crate. In a new clone it would build them for itself alone;
this builds them as `rt ci` does, and marks them as built. Then `rt check`, dev/slowest.py and
dev/edits.py begin at once. It runs no tests and no must-fail edits. It ends with 1 at the first
library that isn't proved, and prints what the prover said.

A kit that keeps what runs prove gives it to every clone on this machine: such a library is taken,
and what is proved here is kept for the others and for the gate. Another kit keeps nothing. With
either, --from names other clones, whose libraries are taken where they are made of the same files.

With --above it builds nothing, and prints which crates stand on the ones named: after an edit there
they are checked again.
"""
import argparse
import concurrent.futures
import copy
import os
import shutil
import sys
import tempfile
import threading
import time
from collections.abc import Iterable
from types import ModuleType
from typing import Any

import kit

SAYING = threading.Lock()
# In the folder of a library: the sum of what it is made of, which `rt check` compares, and that it
# was built as the gate does.
STAMP, MARKER = "stamp", "by_statements"


def say(text: str) -> None:
    with SAYING:
        print(text, flush=True)


class Builder:
    """Over a kit that keeps nothing from one run to the next."""

    def __init__(self, rt: ModuleType, jobs: int, clones: Iterable[str] = ()) -> None:
        self.rt, self.jobs, self.begun = rt, jobs, time.time()
        self.clones = [os.path.abspath(clone) for clone in clones]

    def prove(self, crate: Any) -> bool:
        """Whether the crate is proved, and its library built, from nothing."""
        with tempfile.TemporaryFile("w+", errors="replace") as out:
            this = copy.copy(crate)
            this.out = out
            os.makedirs(f"{crate.folder}/out", exist_ok=True)
            if not this.ci(["--jobs", str(self.jobs)], False):
                return True
            out.seek(0)
            say(out.read())
            return False

    def made(self, crate: Any) -> str | None:
        """How the library came about, or None where it isn't proved."""
        return "proved" if self.prove(crate) else None

    def stands(self, crate: Any) -> bool:
        """Whether the library was built as the gate does, of the files as they are."""
        return os.path.isfile(f"{library(crate.folder)}/{MARKER}") and bool(crate.is_built())

    def taken(self, crate: Any, stamp: str) -> str | None:
        """The clone whose library of the same stamp was taken, if there is one."""
        for clone in self.clones:
            built = library(f"{clone}/crates/{crate.name}")
            if os.path.isfile(f"{built}/{MARKER}") and stamp_in(built) == stamp:
                part = f"{library(crate.folder)}.part"
                shutil.rmtree(part, ignore_errors=True)
                shutil.copytree(built, part, copy_function=linked)
                os.rename(part, library(crate.folder))
                return f"taken from {clone}"
        return None

    def build(self, crate: Any) -> bool:
        """Whether the library stands now."""
        if self.stands(crate):
            return True
        stamp, built = crate.stamp(), library(crate.folder)
        shutil.rmtree(built, ignore_errors=True)
        how = self.taken(crate, stamp) or self.made(crate)
        if how is None or crate.stamp() != stamp:
            say(f"{crate.name} {'changed meanwhile' if how else 'NOT PROVED'}")
            return False
        if not crate.is_program:
            write(f"{built}/{MARKER}", "")
            write(f"{built}/{STAMP}", stamp)
        say(f"{time.time() - self.begun:6.0f} s  {crate.name} {how}")
        return True


class Keeper(Builder):
    """Over a kit that keeps what runs prove, for every clone on this machine."""

    def __init__(self, rt: ModuleType, jobs: int, clones: Iterable[str] = ()) -> None:
        super().__init__(rt, jobs, clones)
        self.kept = rt.Kept(list(kit.crates(rt).values()))

    def made(self, crate: Any) -> str | None:
        key = self.kept.key(crate)
        if self.kept.give(crate, False, key):
            return "kept"
        with self.kept.in_turn(crate, False, key) as has_waited:
            if has_waited and self.kept.give(crate, False, key):
                return "kept"
            if not self.prove(crate):
                return None
            self.kept.is_built(crate)
            self.kept.keep(crate, False, key)
            return "proved"

    def build(self, crate: Any) -> bool:
        is_built = super().build(crate)
        if is_built:
            self.kept.is_built(crate)
        return is_built


def keeps(rt: ModuleType) -> bool:
    """Whether the kit keeps what runs prove."""
    return hasattr(rt, "Kept")


def library(folder: str) -> str:
    return f"{folder}/out/rlib"


def stamp_in(built: str) -> str:
    """The stamp of a library, or nothing where it has none."""
    try:
        with open(f"{built}/{STAMP}", encoding="utf-8") as file:
            return file.read()
    except OSError:
        return ""


def write(name: str, text: str) -> None:
    with open(name, "w", encoding="utf-8") as file:
        file.write(text)


def linked(file: str, to: str) -> str:
    """The file under another name, or its copy where that is on another disk. No kit writes to a
    library's file once it is made."""
    try:
        os.link(file, to)
    except OSError:
        shutil.copyfile(file, to)
    return to


def build_all(builder: Builder, wanted: list[Any], lanes: int) -> bool:
    """Builds each crate once all below it stand; false at the first that isn't proved."""
    left, done = list(wanted), dict[str, bool]()
    running: dict[concurrent.futures.Future[bool], Any] = {}
    with concurrent.futures.ThreadPoolExecutor(lanes) as pool:
        while left or running:
            for crate in [it for it in left if all(done.get(low.name) for low in it.below())]:
                left.remove(crate)
                running[pool.submit(builder.build, crate)] = crate
            if not running:
                break
            first = concurrent.futures.FIRST_COMPLETED
            for future in concurrent.futures.wait(running, return_when=first).done:
                done[running.pop(future).name] = future.result()
            if not all(done.values()):
                left = []
    return all(done.values())


def words_given() -> argparse.Namespace:
    parser = argparse.ArgumentParser(
        description=__doc__, formatter_class=argparse.RawDescriptionHelpFormatter)
    parser.add_argument("names", nargs="+", metavar="NAME",
                        help="a crate of crates.txt; what stands below it is built")
    parser.add_argument("--itself", action="store_true", help="the crates named too")
    parser.add_argument("--above", action="store_true",
                        help="build nothing; print the crates that stand on those named")
    parser.add_argument("--from", dest="clones", action="append", default=[], metavar="DIR",
                        help="another clone whose libraries may be taken; may be repeated")
    parser.add_argument("--lanes", type=int, default=2, help="how many crates at once (2)")
    parser.add_argument("--jobs", type=int, default=1,
                        help="jobs of each crate (1, which takes the fewest processor seconds)")
    return parser.parse_args()


def main() -> int:
    words = words_given()
    rt = kit.load()
    crates = kit.crates(rt)
    chosen = [kit.named(crates, name) for name in words.names]
    if words.above:
        above = [it.name for it in crates.values() if any(low in it.below() for low in chosen)]
        print(f"{len(above)} of {len(crates)}: {' '.join(above)}")
        return 0
    below = {low.name for it in chosen for low in [*it.below(), *([it] if words.itself else [])]}
    wanted = [it for it in crates.values() if it.name in below]
    builder = (Keeper if keeps(rt) else Builder)(rt, words.jobs, words.clones)
    return 0 if build_all(builder, wanted, words.lanes) else 1


if __name__ == "__main__":
    sys.exit(main())
