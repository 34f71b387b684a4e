"""What the tests of the examples share: an example's account, its bills, and sums of entries."""

import csv

from tests.support.case import Case
from tests.support.program import apply, run

COLUMNS = ["day", "segment", "kind", "post", "cents"]


def account_of(text: bytes) -> str:
    """The account that is opened first."""
    return next(line.split()[1] for line in text.decode().splitlines()
                if line.startswith(("open ", "openvar ")))


def owed(file: str, account: str) -> int:
    """What a `show` says is owed, in cents."""
    return int(apply(file, [f"show {account}"]).text.split()[4])


def expect_entries(case: Case, file: str, account: str, wanted: bytes) -> None:
    """The export of an account is as wanted. As Python's csv reads it, each record has the five
    columns, and the cents add up to what is owed."""
    done = run([file, "export", account])
    case.assert_done(done, 0, wanted, f"export {account}")
    columns, *records = csv.reader(done.text.splitlines())
    case.assertEqual(columns, COLUMNS)
    total = sum(int(cents) for _, _, _, _, cents in records)
    case.assertEqual(total, owed(file, account), f"the cents of {account}")
