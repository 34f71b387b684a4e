"""The entries of each example's account are those of the independent model (examples/NAME.csv)."""

from tests.support.case import Case, read
from tests.support.program import EXAMPLES, run

from .ledgers import account_of, expect_entries


class Entries(Case):
    def test_export(self) -> None:
        wanted = sorted(EXAMPLES.glob("*.csv"))
        self.assertTrue(wanted)
        for path in wanted:
            with self.subTest(path.stem):
                text = read(path.with_suffix(".txt"))
                file = self.at(path.stem)
                run([file, "apply"], text)
                expect_entries(self, file, account_of(text), read(path))
