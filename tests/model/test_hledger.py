"""hledger reads the exports of all examples by audit/hledger.rules: its balances are those of
`show`."""

import csv
import os
import subprocess

from tests.support.case import Case, read, tools_missing
from tests.support.program import EXAMPLES, TOP, apply, run

INPUTS = sorted(EXAMPLES.glob("*.txt"))
RULES = str(TOP / "audit" / "hledger.rules")


def balances(export: str) -> dict[str, int]:
    """Cents by account, as hledger adds up the entries of an export."""
    words = ["hledger", "-f", export, "--rules-file", RULES, "balance", "--flat", "-N", "-O", "csv"]
    done = subprocess.run(words, capture_output=True, text=True)
    if done.returncode != 0:
        raise AssertionError(f"hledger ends with {done.returncode}: {done.stderr}")
    records = list(csv.reader(done.stdout.splitlines()))[1:]
    return {account: int(balance.split()[0].replace(",", "")) for account, balance in records}


class Hledger(Case):
    def setUp(self) -> None:
        super().setUp()
        if tools_missing("hledger"):
            self.skipTest("hledger isn't installed: no export is read as a journal")

    def expect(self, file: str, account: str) -> int:
        """Whether there is such an account; its balances are those of its export."""
        shown = apply(file, [f"show {account}"]).text.split()
        if shown[0] != "show":
            return 0
        export = self.write("export.csv", run([file, "export", account]).out)
        found = balances(export)
        owed = sum(cents for name, cents in found.items() if name.startswith("owed:"))
        told = [owed, -found.get("owed:credit", 0), found.get("owed:held", 0)]
        self.assertEqual(told, [int(shown[number]) for number in (4, 6, 8)], account)
        self.assertEqual(sum(found.values()), 0, account)
        return 1

    def test_exports(self) -> None:
        count = 0
        for path in INPUTS:
            file = self.at(os.path.basename(path))
            run([file, "apply"], read(path))
            lines = read(path).decode().splitlines()
            for account in dict.fromkeys(line.split()[1] for line in lines
                                         if line.startswith(("open ", "openvar "))):
                with self.subTest(path.stem, account=account):
                    count += self.expect(file, account)
        self.assertGreater(count, 0)
        print(f"{count} exports")
