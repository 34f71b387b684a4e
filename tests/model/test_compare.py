"""The program beside the independent model of the rules (audit/), on generated input.

60 inputs of 250 generated lines over four accounts with rows in memory, half of them with a trial
balance behind their replies; then 60 such inputs over a file of rows, in three runs each, 60 of CSV
records that come twice, 60 as requests over HTTP, and 60 as requests to six servers one after the
other, whose questions come after a load in any order, each with the open tasks, the entries of
every account, the statements of every cycle, what their balances come to where they are repaid, and
trial balances of six ranges of days afterwards; then 10 demonstrations.
"""

import concurrent.futures
import os
from functools import partial

from audit.compare import compare
from audit.demo import demo_text
from tests.support.case import Case, long
from tests.support.program import PROGRAM, run

SEEDS = range(1, 61)
LINES, ACCOUNTS = 250, 4


def difference(way: str, seed: int) -> str | None:
    """The first difference of an input, None where there is none."""
    try:
        return compare(PROGRAM, seed, LINES, ACCOUNTS, way)
    except SystemExit as ended:
        return str(ended)


class Compare(Case):
    def expect_same(self, way: str) -> None:
        with concurrent.futures.ProcessPoolExecutor(os.cpu_count()) as pool:
            found = list(pool.map(partial(difference, way), SEEDS))
        for seed, told in zip(SEEDS, found, strict=True):
            with self.subTest(seed=seed):
                self.assertIsNone(told, f"seed {seed} by {way} differs\n{told}")

    def test_memory(self) -> None:
        self.expect_same("memory")

    @long
    def test_lines(self) -> None:
        self.expect_same("lines")

    @long
    def test_csv(self) -> None:
        self.expect_same("csv")

    @long
    def test_http(self) -> None:
        self.expect_same("http")

    @long
    def test_asked(self) -> None:
        self.expect_same("asked")

    def test_demonstrations(self) -> None:
        for seed in range(1, 11):
            size = (seed * 99_999_999_999, seed, 60 // seed)
            with self.subTest(size):
                done = run(["-", "demo", *map(str, size)], seconds=600)
                self.assert_done(done, 0, demo_text(*size), str(size))
