"""Accounts of another system: the commands of docs/MOVING.md, and what a table may not have."""

import os
import re
import shlex
import shutil
import subprocess

from audit.days import from_ymd

from .common import TOP, ledger
from .home import Home
from .test_asked import model_of

MOVING = os.path.join(TOP, "examples", "moving")

# By hand: the charges of anna and ben, the credit balance of cora, and the plans' ends. Anna's
# plan ends less than six months on, so it lasts until the closing of 2026-12-05.
LINES = """\
open anna moved 2026-05-06 5 1999 2499 2199 2999 2500 100
charge anna moved-purchase 2026-05-06 purchase 81240
charge anna moved-cash 2026-05-06 cash 15000
open ben moved 2026-05-06 17 2299 2799 2499 2999 2500 100
charge ben moved-purchase 2026-05-06 purchase 125000
charge ben moved-transfer 2026-05-06 transfer 340000
open cora moved 2026-05-06 28 1799 2499 1999 2999 3500 150
payment cora moved-credit 2026-05-06 0 online 6120
plan ben moved-plan-1 2026-05-06 promo 0 2027-03-17 2499
charge ben moved-plan-1-balance 2026-05-06 plan:4 90000
plan anna moved-plan-2 2026-05-06 deferred 1999 2026-12-05 1999
charge anna moved-plan-2-balance 2026-05-06 plan:4 40000
charge anna moved-dispute-1-charge 2026-05-06 purchase 7550
dispute anna moved-dispute-1 2026-05-06 6 7550
"""


class Moving(Home):
    def test_commands(self) -> None:
        """The commands of the document, as they stand there, in a home of the test."""
        with open(os.path.join(TOP, "docs", "MOVING.md"), encoding="utf-8") as file:
            blocks = re.findall(r"```\n(.*?)```", file.read(), re.S)
        commands = [line for block in blocks for line in block.splitlines()]
        self.assertEqual(len(commands), 6)
        told = {}
        for command in commands:
            here = re.sub(r"\bhome/", shlex.quote(self.home) + "/", command)
            here = here.replace("./billctl", '"$BILLCTL"')
            done = subprocess.run(here, shell=True, cwd=TOP, capture_output=True, text=True,
                                  check=False)
            self.assertEqual(done.returncode, 0, command + done.stderr)
            told[command.split()[1]] = done
        self.assertEqual(self.text("moved.txt"), LINES)
        self.assertIn("move: 3 accounts, owed 6,926.70\n", told["move"].stderr)
        self.assertIn("move: anna: the plan up to 2026-09-05 ends on 2026-12-05",
                      told["move"].stderr)
        self.assertIn("charge 6987.90 0.00\n", told["home/rows.db"].stdout)
        self.assertTrue(told["home/rows.db"].stdout.endswith("change 6926.70\n"))
        owed = [line.split()[6:] for line in told["accounts"].stdout.splitlines()]
        self.assertEqual(owed, [["1437.90", "0.00", "75.50"], ["5550.00", "0.00", "0.00"],
                                ["-61.20", "61.20", "0.00"]])

    def test_history(self) -> None:
        """With seven cycles of history the next late fee is a repeated one; without, a first."""
        for name, lines in (("history", ""), ("balance", "roll 2026-05-06\nfeerow 2026-05-07 3000 "
                                              "4100\nopen dora o 2026-05-06 5 1999 2499 2199 2999 "
                                              "2500 100\ncharge dora c 2026-05-06 purchase 300000\n"
                                              "roll 2026-06-06\nbill dora b 1\n")):
            if not lines:
                with open(os.path.join(MOVING, "history.txt"), encoding="ascii") as file:
                    lines = file.read()
            path = self.at(f"{name}.db")
            self.assertEqual(ledger("run", path, "--new", "--far", given=lines)[0], 0)
            self.assertEqual(ledger("run", path, "--far", given="roll 2026-07-05\n")[0], 0)
            machine = model_of(path)
            fees = [fee for fee in machine.book(machine.accounts["dora"]).fees]
            self.assertEqual((fees[-1].cents, fees[-1].repeat),
                             (4100, True) if name == "history" else (3000, False))
            if name == "history":
                self.assertEqual([(fee.day, fee.cents, fee.repeat) for fee in fees][0],
                                 (from_ymd(2026, 3, 2), 3000, False))

    def test_refused(self) -> None:
        """A field that isn't as it should be is named, and nothing is written."""
        folder = self.at("tables")
        shutil.copytree(MOVING, folder)
        for name, old, new, why in (
                ("accounts.csv", "812.40", "812.4", "record 2: purchases is '812.4', wanted units"),
                ("accounts.csv", "ben,17", "ben,31", "record 3: close is '31', wanted 1 to 28"),
                ("accounts.csv", "ben,17", "anna,17", "record 3: account is 'anna', wanted each"),
                ("accounts.csv", "812.40", "0.00,1", "record 2 has 13 fields"),
                ("accounts.csv", "0.00,0.00,0.00,61.20", "5.00,0.00,0.00,61.20",
                 "purchases is '5.00', wanted 0.00 beside a credit balance"),
                ("accounts.csv", "account,close", "account,day", "the header of"),
                ("plans.csv", "ben,promo", "dora,promo", "account is 'dora', wanted one of"),
                ("plans.csv", "2027-03-17", "17.3.2027", "end is '17.3.2027', wanted a day"),
                ("disputes.csv", "purchase", "fees", "category is 'fees', wanted purchase or")):
            path = os.path.join(folder, name)
            with open(path, encoding="ascii") as file:
                text = file.read()
            with open(path, "w", encoding="ascii") as file:
                file.write(text.replace(old, new))
            done = ledger("move", folder, "2026-05-06")
            self.expect(done, 10, why)
            self.assertEqual(done[1], "")
            with open(path, "w", encoding="ascii") as file:
                file.write(text)
