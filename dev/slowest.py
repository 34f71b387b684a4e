#!/usr/bin/env python3
"""Checks a crate from nothing at one job, and prints its slowest functions in processor seconds.

The libraries below it have to stand (dev/libraries.py). What is counted before the first function
is the front end and the loading of all below; it is printed apart. Two checks at once slow each
other down, so run it alone. It proves nothing new and keeps nothing.
"""
import argparse
import os
import re
import subprocess
import tempfile
import time
from collections.abc import Iterator
from types import ModuleType
from typing import Any

import kit

TICKS = os.sysconf("SC_CLK_TCK")
DERIVED = re.compile(r"(Debug|Clone|PartialEq|Eq|PartialOrd|Ord|Hash)\b")


def seconds_of(process: int, before: float) -> float:
    """Processor seconds of a process, or those of before where it has ended."""
    try:
        with open(f"/proc/{process}/stat", encoding="utf-8") as stat:
            words = stat.read().rsplit(")", 1)[1].split()
    except OSError:
        return before
    return (int(words[11]) + int(words[12])) / TICKS


def checked(rt: ModuleType, crate: Any, with_tests: bool) -> Iterator[tuple[float, str]]:
    """Seconds and name of each function that the check names, in order; the first has what came
    before any."""
    flags = crate.words(["--jobs", "1", "--progress"], tests=with_tests, keeps=False)
    with tempfile.NamedTemporaryFile() as stages:
        words = [*rt.rtlib.guarded(), rt.rtlib.RATTLE, "check", *flags]
        run = subprocess.Popen(
            [*words, "--stage-times", stages.name], cwd=crate.folder, stdout=subprocess.PIPE,
            stderr=subprocess.STDOUT, text=True, errors="replace")
        last = 0.0
        for line in run.stdout or ():
            now = seconds_of(run.pid, last)
            if line.startswith(("checked ", "ahead")):
                yield now - last, line.split(",")[0].removeprefix("checked ").strip()[:110]
                last = now
            elif "error" in line or line.startswith("logic="):
                print(line.rstrip()[:200])
        run.wait()


def main() -> None:
    parser = argparse.ArgumentParser(
        description=__doc__, formatter_class=argparse.RawDescriptionHelpFormatter)
    parser.add_argument("name", metavar="NAME", help="a crate of crates.txt")
    parser.add_argument("--test", action="store_true", help="with its tests")
    parser.add_argument("--most", type=int, default=40, help="how many functions (40)")
    words = parser.parse_args()
    rt = kit.load()
    begun = time.time()
    found = list(checked(rt, kit.named(kit.crates(rt), words.name), words.test))
    if not found:
        return
    derived = sum(seconds for seconds, name in found[1:] if DERIVED.search(name))
    whole = sum(seconds for seconds, _ in found)
    print(f"{words.name}: {whole:.0f} s of a processor, {time.time() - begun:.0f} by the clock; "
          f"before the first function {found[0][0]:.0f}, derived code {derived:.0f}")
    for seconds, name in sorted(found[1:], reverse=True)[:words.most]:
        print(f"{seconds:7.1f}  {name}")


if __name__ == "__main__":
    main()
