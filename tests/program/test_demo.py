"""Demonstrations come to the sums of the independent model, and touch no rows."""

import os

from tests.support.case import Case, read
from tests.support.program import EXAMPLES, run

TWENTY = """requests 868
accepted 868
refused 0
owed 33161.60
interest 1876.29
fees 1673.76
"""
NONE = """requests 3
accepted 3
refused 0
owed 0.00
interest 0.00
fees 0.00
"""


class Demo(Case):
    def expect(self, place: str, numbers: str, wanted: str) -> None:
        self.assert_done(run([place, "demo", *numbers.split()]), 0, wanted, f"{place} {numbers}")

    def test_sums(self) -> None:
        """20 accounts over six cycles, which come out the same at each run, and no account."""
        self.expect("-", "1 20 6", TWENTY)
        self.expect("-", "1 20 6", TWENTY)
        self.expect("-", "1 0 1", NONE)

    def test_no_file_is_made(self) -> None:
        self.expect(self.file, "1 0 1", NONE)
        self.assertFalse(os.path.exists(self.file))

    def test_a_file_stays(self) -> None:
        self.assert_done(run([self.file, "apply"], read(EXAMPLES / "first-day.txt")), 0)
        before = read(self.file)
        self.expect(self.file, "1 20 6", TWENTY)
        self.assertEqual(read(self.file), before)
