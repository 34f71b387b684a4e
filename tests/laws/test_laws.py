"""What the program prints of histories keeps the laws of the regulation that the checks ask for.

Each check also finds a short history in which one line was changed, and no other check does.
"""

import concurrent.futures
import subprocess
import sys
import unittest
from pathlib import Path

from tests.support import case
from tests.support.program import EXAMPLES, TOP

from .faults import FAULTS, HISTORIES, Fault
from .laws import CHECKS, check_all
from .printing import print_papers

SEEDS = range(1, 41)
LINES, ACCOUNTS = 250, 4
# the least cases of each check, and of what some of them look at
OF_SHORT = dict.fromkeys(("late-fees", "tiers", "excess", "credited"), 2)
OF_EXAMPLES = dict.fromkeys(CHECKS, 10)
OF_RANDOM = dict.fromkeys(CHECKS, 100) | {
    "sixty-days": 20, "whole, credits": 100, "asked, disputed": 100, "index, raised": 20,
    "own-days, purchase": 100, "own-days, cash": 100, "own-days, transfer": 100,
    "own-days, promo": 20, "own-days, deferred": 20}


def generated(seed: int) -> bytes:
    words = [sys.executable, "-m", "audit.generate", str(seed), str(LINES)]
    return subprocess.run([*words, "--accounts", str(ACCOUNTS)], cwd=TOP, check=True,
                          stdout=subprocess.PIPE).stdout


def print_history(folder: Path, lines: bytes | int) -> Path:
    """The papers of request lines, or of those that are generated from a seed."""
    print_papers(folder, generated(lines) if isinstance(lines, int) else lines)
    return folder


class Laws(case.Case):
    def hold(self, folders: list[Path], least: dict[str, int], what: str) -> None:
        """No check finds anything, and each has looked at so many cases."""
        broken, counts = check_all(folders, least)
        print(f"{what}: {counts}", flush=True)
        self.assertEqual(broken, [])

    def found_by(self, fault: Fault, folder: Path) -> list[str]:
        """The checks that find a fault in the papers of its history, which are left as they are."""
        path = folder / fault.file
        text = path.read_text(encoding="ascii")
        self.assertEqual(text.splitlines().count(fault.line), 1,
                         f"{fault.line} has to be one line of {fault.history}/{fault.file}")
        path.write_text(text.replace(fault.line + "\n", fault.changed + "\n"), encoding="ascii")
        broken, _ = check_all([folder], {})
        path.write_text(text, encoding="ascii")
        return [line.partition(":")[0] for line in broken]

    def test_faults(self) -> None:
        """Each is found by the check that it is for; each check is alone in finding one."""
        room = Path(self.room)
        for name, lines in HISTORIES.items():
            print_history(room / name, lines.encode())
            broken, _ = check_all([room / name], OF_SHORT if name == "short" else {})
            self.assertEqual(broken, [], name)
        for fault in FAULTS:
            with self.subTest(check=fault.check, changed=fault.changed):
                found = self.found_by(fault, room / fault.history)
                self.assertEqual(found, [fault.check, *fault.also])
        alone = {fault.check for fault in FAULTS if not fault.also}
        self.assertEqual(alone, set(CHECKS))
        print(f"{len(FAULTS)} changed lines, each found by the check that it is for")

    def test_examples(self) -> None:
        folders = [print_history(Path(self.at(path.stem)), path.read_bytes())
                   for path in sorted(EXAMPLES.glob("*.txt"))]
        self.hold(folders, OF_EXAMPLES, f"{len(folders)} examples")

    @case.long
    def test_random_histories(self) -> None:
        folders = [Path(self.at(f"random-{seed}")) for seed in SEEDS]
        with concurrent.futures.ThreadPoolExecutor(2) as pool:
            folders = list(pool.map(print_history, folders, SEEDS))
        self.hold(folders, OF_RANDOM, f"{len(folders)} random histories")


if __name__ == "__main__":
    unittest.main()
