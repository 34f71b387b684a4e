"""`examine`: each thing an examiner would ask about is found in a made ledger, and none in a clean
one. The amounts and days are worked out by hand in the comments."""

import csv
import io

from .common import ledger
from .home import Home

TERMS = "5 1999 2499 2199 2999 2500 100"
START = "feerow 2011-01-02 3000 4100\n"

# What each day of the made ledger brings, behind the roll to it.
DAYS: dict[str, str] = {
    # early: opened 2023-04-01, so its first year is over on 2024-04-01
    "2023-04-06": f"open early o 2023-04-01 {TERMS}\n",
    "2023-05-06": "", "2023-06-06": "", "2023-07-06": "", "2023-08-06": "", "2023-09-06": "",
    "2023-10-06": "", "2023-11-06": "", "2023-12-06": "", "2024-01-06": "",
    "2024-01-10": "".join(f"open {name} o 2024-01-06 {TERMS}\n" for name in (
        "fee", "grace", "sixty", "twice", "slow", "back", "unbilled", "behind", "rates", "refund"))
    # mail: closes on the 6th, so its due date is Saturday 2024-03-02
    + f"open mail o 2024-01-07 6 {TERMS[2:]}\n"
    "charge fee c 2024-01-10 purchase 3000\ncharge grace c 2024-01-10 purchase 30000\n"
    "charge sixty c 2024-01-10 purchase 2000\ncharge twice c 2024-01-10 purchase 10000\n"
    "charge slow c 2024-01-10 purchase 100\ncharge back c 2024-01-10 purchase 5000\n"
    "charge rates c 2024-01-10 cash 100000\ncharge mail c 2024-01-10 purchase 3000\n"
    "payment refund p 2024-01-10 600 online 5000\naskrefund refund a 2024-01-10\n",
    "2024-01-15": "refund refund r 2000\n",
    "2024-01-20": "dispute slow d 2024-01-20 2 100\ndispute back d 2024-01-20 2 5000\n"
                  "lower rates l 2024-01-20 cash 1500\n",
    "2024-02-06": "",
    "2024-02-07": "",
    "2024-02-10": "charge behind c 2024-01-30 purchase 700\nresolve back r 2024-02-10 3 5000\n"
                  "payment fee p 2024-02-10 600 online 1000\n",
    "2024-02-20": "dispute fee d 2024-02-20 2 2000\ndispute grace d 2024-02-20 2 200\n"
                  "dispute sixty d 2024-02-20 2 2000\n"
                  "notice early n 2024-02-20 purchase 2499 2024-04-05\n",
    "2024-02-25": "payment grace p 2024-02-25 600 online 29800\nack fee k 2024-02-25 5\n"
                  "ack grace k 2024-02-25 4\nack sixty k 2024-02-25 4\n"
                  "amend back m 2 2024-01-10 10000\n",
    "2024-03-01": "ack slow k 2024-03-01 3\n",
    "2024-03-04": "payment mail p 2024-03-03 600 mail 2500\n",
    "2024-03-06": "", "2024-03-07": "",
    "2024-04-06": "resolve slow r 2024-04-06 3 100\nreview early v 2024-04-06 reduce\n"
                  "lower early w 2024-04-06 cash 1999\nresolve fee r 2024-04-06 5 0\n"
                  "resolve grace r 2024-04-06 4 0\n",
    "2024-04-07": "",
    "2024-05-02": "penalty sixty x\npenalty twice x\n",
    "2024-05-03": "penalty twice y\n",
}

# Section, account, day, and how the finding begins.
WANTED = {
    (".55(b)(3)(iii)", "early", "2024-02-20",
     "notice 13 raises the purchase rate of charges from 2024-03-06 on, and the first year is"),
    (".59(a)(2)", "early", "2024-04-06", "lower 16 is of cash, and review 15 was of purchase"),
    # the minimum of 30.00 is 25.00; 10.00 came in, and 20.00 is in dispute
    (".13(d)(1)", "fee", "2024-03-02",
     "a late fee of 25.00 on statement 1, of which 15.00 was missing and 20.00 in dispute"),
    # 20.00 on fourteen days and the fee of 25.00 on four at 19.99%: 15.33 and 5.48 cents
    (".13(d)(1)", "fee", "2024-03-05", "0.21 of interest on purchases: statement 1 wasn't paid by"),
    # the same with a fee of 20.00: 15.33 and 4.38 cents
    (".13(d)(1)", "sixty", "2024-03-05", "0.20 of interest on purchases: statement 1 wasn't paid"),
    # two dollars on 14 days at 19.99%: 1.53 cents
    (".13(d)(1)", "grace", "2024-03-05",
     "0.02 of interest on purchases: statement 1 wasn't paid by 2.00, and 2.00 of it was in"),
    # the minimum of 20.00 is 20.00, and so is the fee
    (".13(d)(1)", "sixty", "2024-03-02",
     "a late fee of 20.00 on statement 1, of which 20.00 was missing and 20.00 in dispute"),
    (".13(d)(1)", "sixty", "2024-05-02",
     "penalty 8 was given while all that was missing of statement 1 was in dispute"),
    (".55(b)(4)(ii)", "twice", "2024-05-03", "penalty 7 is a second one for statement 1"),
    # thirty days after 2024-01-20, and two closings after the first one
    (".13(c)(1)", "slow", "2024-03-01",
     "dispute 3 was acknowledged on 2024-03-01, after 2024-02-19"),
    (".13(c)(2)", "slow", "2024-04-06", "dispute 3 was resolved on 2024-04-06, after 2024-04-05"),
    (".13(c)(2)", "back", "2024-02-25", "amend 6 raises charge 2 after an error of 5000 cents"),
    (".5(b)(2)(ii)", "unbilled", "2024-03-01", "statement 1 was issued on 2024-03-01, after"),
    (".8", "behind", "2024-02-10", "charge 3 of 2024-01-30 was entered after the statement of"),
    (".10(d)(1)", "mail", "2024-03-03",
     "payment 4 by mail of 2024-03-03 counts after the due date 2024-03-02"),
    # ten days of 1,000.00 at 24.99% and seventeen at 15.00%: 6.85 and 6.99
    (".7(b)(4)", "rates", "2024-02-05",
     "statement 1 shows 15.00% of cash:3 alone, and its interest of 13.83 is of several rates"),
    (".11(a)(2)", "refund", "2024-01-15", "refund 4 of 2000 cents left 3000 cents of the credit"),
}

CLEAN: dict[str, str] = {
    "2024-01-10": f"open anna o 2024-01-06 {TERMS}\nopen ben o 2024-01-07 6 {TERMS[2:]}\n"
    "charge anna c1 2024-01-10 purchase 30000\ncharge ben c1 2024-01-10 cash 20000\n"
    "payment anna p0 2024-01-10 600 online 40000\naskrefund anna a 2024-01-10\n",
    "2024-01-15": "refund anna r 10000\ncharge anna c2 2024-01-15 purchase 5000\n",
    "2024-02-06": "", "2024-02-07": "",
    "2024-02-10": "dispute anna d 2024-02-10 6 1000\n",
    "2024-02-20": "ack anna k 2024-02-20 8\npayment anna p1 2024-02-20 600 online 5000\n",
    "2024-03-01": "resolve anna e 2024-03-01 8 0\n",
    # ben's due date is Saturday 2024-03-02, and his mail of the Monday makes up for it
    "2024-03-04": "payment ben p1 2024-03-04 600 mail 20100\n",
    "2024-03-06": "", "2024-03-07": "",
}


class Examine(Home):
    def go_through(self, days: dict[str, str], unbilled: str = "") -> None:
        """The days, each with the bills that are due; one account's first bill is left out."""
        self.begin(START)
        for day, lines in days.items():
            self.sent(f"roll {day}\n{lines}")
            bills = ledger("bills", self.file)[1].splitlines(keepends=True)
            bills = [line for line in bills if day >= "2024-03" or f" {unbilled} " not in line]
            if bills:
                self.sent("".join(bills))

    def sent(self, lines: str) -> None:
        done = ledger("run", self.file, "--far", "--late", given=lines)
        self.assertEqual(done[0], 0, done)

    def test_found(self) -> None:
        self.go_through(DAYS, "unbilled")
        status, out, err = ledger("examine", self.home)
        self.assertEqual(status, 1)
        records = list(csv.DictReader(io.StringIO(out)))
        found = {(record["section"].removeprefix("12 CFR 1026"), record["account"],
                  record["day"], record["what"]) for record in records}
        for section, account, day, front in WANTED:
            self.assertTrue([one for one in found if one[:3] == (section, account, day)
                             and one[3].startswith(front)], f"{section} {account} {day}\n{out}")
        more = [one for one in found if not any(one[:3] == wanted[:3] for wanted in WANTED)]
        self.assertEqual(more, [])
        self.assertEqual(len(records), len(WANTED), out)
        self.assertTrue(all(record["remedy"] for record in records))
        self.assertIn(f"examine: {len(WANTED)} findings; docs/RULES.md", err)

    def test_clean(self) -> None:
        self.go_through(CLEAN)
        status, out, err = ledger("examine", self.home)
        self.assertEqual((status, out), (0, "section,account,day,what,remedy\n"), err)

    def test_overdue(self) -> None:
        """An open dispute past its last day for an acknowledgement."""
        self.go_through({"2024-01-10": CLEAN["2024-01-10"],
                         "2024-01-15": "refund anna r 10000\n",
                         "2024-02-06": "dispute anna d 2024-02-06 2 1000\n", "2024-02-07": "",
                         "2024-03-06": "", "2024-03-08": ""})
        out = ledger("examine", self.home)[1]
        self.assertIn('12 CFR 1026.13(c)(1),anna,2024-03-07,"ACK of post 6 was to be done by '
                      '2024-03-07, and isn\'t"', out)
