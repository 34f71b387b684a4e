"""Runs the tests, each module in a process of its own, several at once.

    python3 -m tests [NAME..] [--fast] [--jobs N]

NAME is a package or a module below tests/, as `examples` or `http.test_clients`; without one all
modules run. `--fast` leaves out what takes long. A line a module is written as it ends, in the
order of their names, with what it printed below it; then each failure, each skipped case with its
reason, and the sum. The status is 1 where a case failed, 2 where a name is none.

A module that wants no other beside it says `ALONE = True`; one that takes long as a whole says
`LONG = True`, and of others a class or a case is marked by tests.support.case.long. The variable
BILLCTL names a program to test in the place of crates/billctl/out/billctl. Files lie in memory
(/dev/shm) where there is such a disk and TMPDIR says nothing else: no commit waits.
"""

import argparse
import concurrent.futures
import contextlib
import json
import os
import re
import signal
import subprocess
import sys
import tempfile
import time
from pathlib import Path
from typing import Any, NamedTuple

from .support.program import TOP, not_built

TESTS = TOP / "tests"
MEMORY = "/dev/shm"
SECONDS = 3600
UNDER_WAY: "set[subprocess.Popen[bytes]]" = set()


class Outcome(NamedTuple):
    """What a module came to."""

    module: str
    seconds: float
    printed: str
    found: dict[str, Any]


def name_of(path: Path) -> str:
    return ".".join(path.relative_to(TESTS).with_suffix("").parts)


def modules() -> dict[str, Path]:
    """All modules of tests, by name."""
    return {name_of(path): path for path in sorted(TESTS.glob("**/test_*.py"))}


def chosen(names: list[str]) -> dict[str, Path]:
    found = modules()
    for name in names:
        if not any(f"{module}.".startswith(f"{name}.") for module in found):
            packages = sorted({module.split(".")[0] for module in found})
            print(f"tests: there is no package or module {name}; the packages are "
                  f"{', '.join(packages)}", file=sys.stderr)
            sys.exit(2)
    return {module: path for module, path in found.items()
            if not names or any(f"{module}.".startswith(f"{name}.") for name in names)}


def is_alone(path: Path) -> bool:
    return bool(re.search(r"^ALONE = True", path.read_text(encoding="utf-8"), re.MULTILINE))


def environment() -> dict[str, str]:
    found = dict(os.environ, PYTHONDONTWRITEBYTECODE="1")
    if not found.get("TMPDIR") and os.path.isdir(MEMORY):
        found["TMPDIR"] = MEMORY
    return found


def run_module(name: str, is_fast: bool) -> Outcome:
    """One module in a process of its own; what it started ends with it."""
    begun = time.monotonic()
    with tempfile.TemporaryDirectory() as room:
        result, printed = Path(room, "result"), Path(room, "printed")
        words = [sys.executable, "-m", "tests.support.module", f"tests.{name}", str(result)]
        with open(printed, "wb") as out:
            running = subprocess.Popen([*words, *["--fast"] * is_fast], cwd=TOP, stdout=out,
                                       stderr=out, stdin=subprocess.DEVNULL, env=environment(),
                                       start_new_session=True)
            UNDER_WAY.add(running)
            why = end_of(running)
        text = printed.read_text(encoding="utf-8", errors="backslashreplace")
        if why or not result.exists():
            why = why or f"its process ended with {running.returncode}\n{text}"
            found: dict[str, Any] = {"passed": [], "failed": [(f"tests.{name}", why)],
                                     "failed cases": 1, "skipped": [], "fast only": 0}
        else:
            found = json.loads(result.read_text(encoding="utf-8"))
    return Outcome(name, time.monotonic() - begun, text, found)


def end_of(running: "subprocess.Popen[bytes]") -> str:
    """Waits for the end of a module: why it didn't come, or nothing."""
    try:
        running.wait(SECONDS)
        return ""
    except subprocess.TimeoutExpired:
        return f"it didn't end in {SECONDS} seconds"
    finally:
        end(running)
        UNDER_WAY.discard(running)


def end(running: "subprocess.Popen[bytes]") -> None:
    """Ends a module, and what it started."""
    with contextlib.suppress(ProcessLookupError):
        os.killpg(running.pid, signal.SIGKILL)
    running.wait()


def tell(outcome: Outcome) -> None:
    """The line of a module, and what it printed."""
    found = outcome.found
    counts = f"{len(found['passed'])} passed"
    if found["failed"]:
        counts += f", {found['failed cases']} failed"
    if found["skipped"]:
        counts += f", {len(found['skipped'])} skipped"
    print(f"{outcome.module:34} {outcome.seconds:7.1f} s  {counts}")
    for line in outcome.printed.splitlines():
        print(f"    {line}")
    sys.stdout.flush()


def run_all(paths: dict[str, Path], is_fast: bool, jobs: int) -> list[Outcome]:
    """Several at once, then those that run alone; told in the order of their names."""
    alone = [name for name, path in paths.items() if is_alone(path)]
    together = [name for name in paths if name not in alone]
    outcomes = []
    for names, lanes in ((together, jobs), (alone, 1)):
        with concurrent.futures.ThreadPoolExecutor(lanes) as pool:
            try:
                for outcome in pool.map(run_module, names, [is_fast] * len(names)):
                    tell(outcome)
                    outcomes.append(outcome)
            except BaseException:
                pool.shutdown(wait=False, cancel_futures=True)
                for running in list(UNDER_WAY):
                    end(running)
                raise
    return outcomes


def summary(outcomes: list[Outcome]) -> bool:
    """Tells each failure and what wasn't tested; whether all passed."""
    for outcome in outcomes:
        for case, message in outcome.found["failed"]:
            print(f"\nfailed: {case.removeprefix('tests.')}\n{message.rstrip()}")
    for outcome in outcomes:
        for case, reason in outcome.found["skipped"]:
            print(f"not tested: {reason}: {case.removeprefix('tests.')}")
    count = {key: sum(len(outcome.found[key]) for outcome in outcomes)
             for key in ("passed", "skipped")}
    failed: int = sum(outcome.found["failed cases"] for outcome in outcomes)
    left = sum(outcome.found["fast only"] for outcome in outcomes)
    if left:
        print(f"left out by --fast: {left}")
    skipped = f", {count['skipped']} skipped" if count["skipped"] else ""
    print(f"{count['passed']} passed, {failed} failed{skipped}")
    return failed == 0


def main() -> None:
    parser = argparse.ArgumentParser(prog="python3 -m tests")
    parser.add_argument("names", nargs="*", metavar="NAME")
    parser.add_argument("--fast", action="store_true", help="leave out what takes long")
    parser.add_argument("--jobs", type=int, default=os.cpu_count() or 1, metavar="N",
                        help="modules at once, as many as processors where it isn't given")
    words = parser.parse_args()
    paths = chosen(words.names)
    # what is ended from outside ends what it started
    signal.signal(signal.SIGTERM, lambda *_: sys.exit(1))
    if not_built():
        print(f"tests: {not_built()}", file=sys.stderr)
    sys.exit(0 if summary(run_all(paths, words.fast, max(1, words.jobs))) else 1)


if __name__ == "__main__":
    main()
