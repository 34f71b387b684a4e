#!/usr/bin/env python3
"""Runs a command, usually the gate, and prints the processor seconds of its provers by crate.

    dev/gate_minutes.py -- rt ci
    dev/gate_minutes.py -- .ci/run

The seconds are told apart by what a prover's words and folder show: proofs of sources, tests, the
checks that a crate's must-fail edits begin and end with (seeds), the edits themselves, and the
compiling of what was proved. It looks four times a second, so what takes less may be missed. The
command's own output goes where it goes; the table comes after it, and the command's status is
this one's. Linux and the standard library.
"""
import os
import subprocess
import sys
import time

TICKS = os.sysconf("SC_CLK_TCK")
KINDS = ("proofs", "tests", "seeds", "edits", "compiling")
# by the number of a process and when it began, since numbers come again
Seen = dict[tuple[int, str], tuple[str, str, float]]


def read(path: str) -> str:
    with open(path, encoding="utf-8", errors="replace") as file:
        return file.read()


def stat_of(process: int) -> list[str]:
    return read(f"/proc/{process}/stat").rsplit(")", 1)[1].split()


def below(root: int) -> set[int]:
    """The processes that a process started, and theirs."""
    parents = {}
    for name in filter(str.isdigit, os.listdir("/proc")):
        try:
            parents[int(name)] = int(stat_of(int(name))[1])
        except OSError:
            pass
    found, grown = {root}, True
    while grown:
        more = {process for process, parent in parents.items() if parent in found} - found
        found, grown = found | more, bool(more)
    return found


def kind_of(words: list[str], folder: str) -> str:
    if "--crate-checked" in words:
        return "compiling"
    if "rt-edit" in folder:
        kept = words[words.index("--incremental") + 1] if "--incremental" in words else ""
        return "seeds" if os.path.basename(kept) == "seed" else "edits"
    return "tests" if "--test" in words else "proofs"


def look(root: int, seen: Seen) -> None:
    """Notes what each prover below the process has used so far."""
    for process in below(root):
        try:
            words = read(f"/proc/{process}/cmdline").split("\0")
            if os.path.basename(words[0]) != "rattle" or "--crate-name" not in words:
                continue
            stat, folder = stat_of(process), os.readlink(f"/proc/{process}/cwd")
        except OSError:
            continue
        name = words[words.index("--crate-name") + 1]
        seconds = (int(stat[11]) + int(stat[12])) / TICKS
        seen[process, stat[19]] = name, kind_of(words, folder), seconds


def table_of(seen: Seen, minutes: float) -> list[str]:
    table: dict[str, dict[str, float]] = {}
    for name, kind, seconds in seen.values():
        row = table.setdefault(name, dict.fromkeys(KINDS, 0.0))
        row[kind] += seconds
    lines = [f"{'processor seconds':<20}" + "".join(f"{kind:>11}" for kind in KINDS)]
    for name in sorted(table, key=lambda it: -sum(table[it].values())):
        lines.append(f"{name:<20}" + "".join(f"{table[name][kind]:>11.0f}" for kind in KINDS))
    sums = [sum(row[kind] for row in table.values()) / 60 for kind in KINDS]
    told = "".join(f"{it:>11.1f}" for it in sums)
    return [*lines, f"{'minutes':<20}{told}   {sum(sums):.0f} in all, {minutes:.0f} by the clock"]


def main() -> int:
    words = sys.argv[1:]
    if words and words[0] in ("-h", "--help"):
        print((__doc__ or "").strip())
        return 0
    if "--" not in words[:-1]:
        print((__doc__ or "").strip(), file=sys.stderr)
        return 2
    seen: Seen = {}
    begun = time.time()
    run = subprocess.Popen(words[words.index("--") + 1:])
    while run.poll() is None:
        look(run.pid, seen)
        time.sleep(0.25)
    print("\n".join(table_of(seen, (time.time() - begun) / 60)))
    return run.returncode


if __name__ == "__main__":
    sys.exit(main())
