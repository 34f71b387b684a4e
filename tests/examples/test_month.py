"""A month of a small issuer over rows in a file (examples/month), against the independent model.

The opening, the month's records as a spreadsheet writes them (quotes, CR LF), the corrected file
once more, and the bills.
"""

from tests.support.case import Case, read
from tests.support.program import EXAMPLES, run

from .ledgers import expect_entries

MONTH = EXAMPLES / "month"
STEPS = (
    ("apply", "opening.txt", 0),
    ("import", "records.csv", 1),
    ("import", "records-corrected.csv", 1),
    ("apply", "closing.txt", 0),
)


class Month(Case):
    def test_month(self) -> None:
        replies = b""
        for word, name, status in STEPS:
            done = run([self.file, word], read(MONTH / name))
            self.assert_done(done, status, what=f"{word} of {name}")
            replies += done.out
        self.assert_same(replies, read(MONTH / "replies.out"), "replies")
        for account in ("anna", "ben", "cora"):
            for word in ("statement", "restate"):
                done = run([self.file, word, account, "1"])
                wanted = read(MONTH / f"statement-{account}.out")
                self.assert_done(done, 0, wanted, f"{word} {account}")
            wanted = read(MONTH / f"entries-{account}.csv")
            expect_entries(self, self.file, account, wanted)
