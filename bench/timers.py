"""Programs of Rattle that time single calls: the timer.txt of a folder of bench/, built over the
crates that it needs without a proof (dev/unproved.py)."""

import os
import shutil
import subprocess
import sys

from tests.support.program import TOP

from .measure import needs, stop


def crates_below(wanted: list[str]) -> dict[str, list[str]]:
    """The crates that stand below these, and they themselves, as crates.txt has them."""
    stands = {}
    with open(TOP / "crates.txt", encoding="utf-8") as lines:
        for line in lines:
            if ":" in line and not line.startswith("#"):
                name, _, below = line.partition(":")
                stands[name] = below.split()
    needed, left = set(), list(wanted)
    while left:
        name = left.pop()
        if name in stands and name not in needed:
            needed.add(name)
            left += stands[name]
    return {name: below for name, below in stands.items() if name in needed}


def build(folder: str, wanted: list[str], room: str) -> str:
    """The program of a folder's timer.txt over these crates. It takes some minutes."""
    needs("rt")
    crates = crates_below(wanted)
    for name in crates:
        shutil.copytree(TOP / "crates" / name, f"{room}/crates/{name}",
                        ignore=shutil.ignore_patterns("out"))
    os.makedirs(f"{room}/crates/timer/src")
    shutil.copyfile(TOP / "HANDLES", f"{room}/HANDLES")
    shutil.copyfile(TOP / "bench" / folder / "timer.txt", f"{room}/crates/timer/src/main.rt")
    with open(f"{room}/crates.txt", "w", encoding="utf-8") as out:
        for name, below in {**crates, "timer": wanted}.items():
            out.write(f"{name}: {' '.join(below)}\n")
    program = f"{room}/timer.program"
    script = str(TOP / "dev" / "unproved.py")
    done = subprocess.run([sys.executable, script, "--top", room, "timer", program],
                          capture_output=True, text=True)
    if done.returncode != 0:
        stop(f"{folder}/timer.txt isn't built: {(done.stderr + done.stdout)[-2000:]}")
    return program
