"""What an operator asks: who is late, balances, posts, undo, tomorrow, and records by keys."""

import csv
import io
import os

from audit.commands import load
from audit.days import Anchor, day_text, due
from audit.ledger_file import copied, rows_of
from audit.machine import Machine
from audit.money import money_text
from audit.payments import counted_since, has_due_payment, sixty_days_late

from .common import HEADER, LINES, Case, ledger
from .home import OPENING, Home

KEYED = HEADER.strip() + ",of\n"


def model_of(path: str) -> Machine:
    """The independent model over the rows of a file."""
    with copied(path) as copy:
        return load(rows_of(copy))


def cents(text: str) -> int:
    """The cents of an amount with two digits."""
    return int(text.replace(".", ""))


def due_day(anchor: Anchor, number: int) -> int:
    """The due date of a cycle that has one."""
    day = due(anchor, number)
    if day is None:
        raise AssertionError(f"cycle {number} has no due date")
    return day


class Money(Home):
    def setUp(self) -> None:
        """Three accounts: one pays, one pays too little and once in vain, one never pays."""
        super().setUp()
        terms = "5 1999 2499 2199 2999 2500 100"
        self.begin("feerow 2011-01-02 3000 4100\nroll 2024-01-10\n" + "".join(
            f"open {name} o 2024-01-06 {terms}\ncharge {name} c1 2024-01-10 purchase 90000\n"
            for name in ("anna", "ben", "cora")))
        for day, lines in (
                ("2024-02-06", ""),
                ("2024-02-20", "payment anna p1 2024-02-20 600 online 9000\n"
                               "payment ben p1 2024-02-20 600 online 2500\n"),
                ("2024-02-25", "return ben r1 2024-02-25 4\n"
                               "payment ben p2 2024-02-25 600 online 1000\n"),
                ("2024-03-06", "payment anna p2 2024-03-06 600 online 3000\n"),
                ("2024-04-06", ""), ("2024-05-06", "")):
            ledger("run", self.file, "--far", given=f"roll {day}\n{lines}")
            ledger("run", self.file, given=ledger("bills", self.file)[1])

    def test_late(self) -> None:
        """Held against the independent model: statement, asked, credited, and the sixty days."""
        status, out, err = ledger("late", self.home)
        self.assertEqual(status, 0)
        found = {record["account"]: record for record in csv.DictReader(io.StringIO(out))}
        machine = model_of(self.file)
        wanted = {}
        for name, account in machine.accounts.items():
            book = machine.book(account)
            short = [cycle for cycle in book.cycles
                     if due_day(book.anchor, cycle.number) < machine.today
                     and has_due_payment(book, cycle.number)
                     and counted_since(book, cycle.number, machine.today) < cycle.minimum]
            if short:
                cycle = short[-1]
                got = counted_since(book, cycle.number, machine.today)
                wanted[name] = (str(cycle.number), day_text(due_day(book.anchor, cycle.number)),
                                money_text(cycle.minimum), money_text(got),
                                money_text(cycle.minimum - got), money_text(book.owed()),
                                "allowed" if sixty_days_late(book, machine.today) else "")
        self.assertEqual({name: (one["statement"], one["due"], one["asked"], one["credited"],
                                 one["missing"], one["owed"], one["penalty_rate"])
                          for name, one in found.items()}, wanted)
        self.assertEqual(sorted(wanted), ["anna", "ben", "cora"])
        self.assertEqual(found["cora"]["penalty_rate"], "allowed")
        self.assertIn("late: 3 of 3 accounts on 2024-05-06", err)

    def test_owed(self) -> None:
        machine = model_of(self.file)
        status, out, _ = ledger("accounts", self.file, "--owed")
        self.assertEqual(status, 0)
        for line in out.splitlines():
            name, *rest = line.split()
            self.assertEqual(rest[5], money_text(machine.book(machine.accounts[name]).owed()))
        self.assertEqual(ledger("accounts", self.file)[1].splitlines()[0],
                         "anna 2024-01-06 5 8 4 4")

    def test_tomorrow(self) -> None:
        """What the next night tells, without a byte of the home changed."""
        self.put("cards.csv", HEADER + "anna,c9,charge,2024-05-06,purchase,1234,,\n"
                                       "dora,c1,charge,2024-05-06,purchase,1,,\n")
        before = self.listing()
        status, out, _ = ledger("tomorrow", self.home, "--inbox")
        self.assertEqual(status, 1)
        self.assertEqual({name: data for name, data in self.listing().items()
                          if not name.startswith("rows.db-wal")},
                         {name: data for name, data in before.items()
                          if not name.startswith("rows.db-wal")})
        self.assertEqual(self.night("2024-05-07")[0], 1)
        report = self.text("reports", "2024-05-07.txt")
        self.assertEqual(out, report + "replies to cards.csv:\n" + self.text(
            "done", "2024-05-07", "cards.csv.replies"))
        self.assertIn("inbox cards.csv: 2 records, 1 new row, 1 refused\n", report)
        self.assertIn("  accepted: 1 charge 12.34\n", report)
        status, out, _ = ledger("tomorrow", self.home)
        self.assertIn("roll: from 2024-05-07 to 2024-05-08\n", out)

    def test_report(self) -> None:
        """Fees, interest, who is newly late, and what came back; the ten lines are `trial`'s."""
        self.assertEqual(self.night("2024-05-07")[0], 0)
        first = self.text("books", "2024-05-07.csv")
        self.put("desk.txt", "return anna r9 2024-05-07 4\n")
        for day in ("2024-05-08", "2024-05-14"):
            self.assertEqual(self.night(day)[0], 0)
        report = self.text("reports", "2024-05-08.txt")
        self.assertIn("payments returned: 1\n  anna r9\n", report)
        # the fee of the return is dated back to its day; it is at most the minimum, 25.00
        self.assertIn("posted since the close of 2024-05-07: late fees 0.00 on 0, "
                      "returned-payment fees 25.00 on 1, interest ", report)
        self.assertIn("  returned-payment fee anna 25.00\n", report)
        self.assertEqual(self.night("2024-06-02", "--far")[0], 0)
        report = self.text("reports", "2024-06-02.txt")
        self.assertIn("newly late: 3\n", report)
        self.assertRegex(report, "posted since the close of 2024-05-14: late fees 123.00 on 3, ")
        self.of_trial("2024-06-02", first)

    def of_trial(self, day: str, first: str) -> None:
        """The close is what billctl's trial says, and the differences are from the one before."""
        from companion.program import call, find_program
        _, text = call(find_program(), self.file, "trial", "2011-01-01", day)
        trial = [line.split(" ") for line in text.decode().splitlines()]
        records = list(csv.DictReader(io.StringIO(self.text("books", f"{day}.csv"))))
        self.assertEqual([[one["kind"], one["debits"], one["credits"]] for one in records],
                         trial[:-1])
        self.assertIn(f"  {' '.join(trial[-1])} (new: ",
                      self.text("reports", f"{day}.txt"))
        before = list(csv.DictReader(io.StringIO(self.text("books", "2024-05-14.csv"))))
        self.assertEqual([one["debits_before"] for one in records],
                         [one["debits"] for one in before])
        self.assertTrue(all(one["debits_before"] == "0.00"
                            for one in csv.DictReader(io.StringIO(first))))
        for side in ("debits", "credits"):
            self.assertEqual([cents(one[f"{side}_new"]) for one in records],
                             [cents(one[side]) - cents(one[f"{side}_before"]) for one in records])
        self.assertEqual([one["debits_new"] for one in records if one["kind"] == "fee"],
                         ["123.00"])
        self.by_account(day)

    def by_account(self, day: str) -> None:
        """By account: what is owed is the model's, and the three late fees are new."""
        machine = model_of(self.file)
        for one in csv.DictReader(io.StringIO(self.text("books", f"{day}-accounts.csv"))):
            book = machine.book(machine.accounts[one["account"]])
            self.assertEqual(one["owed"], money_text(book.owed()))
            self.assertEqual(one["late_fees_new"], "41.00")
            self.assertGreaterEqual(cents(one["late_fees"]), cents(one["late_fees_new"]))


class Late(Home):
    """The days on which a statement begins to be late, worked out by hand: it closes on 2024-02-05,
    and its payment is due on 2024-03-01; the sixtieth day behind that is 2024-04-30."""

    def setUp(self) -> None:
        super().setUp()
        self.begin("feerow 2011-01-02 3000 4100\nroll 2024-01-10\n"
                   "open anna o 2024-01-06 5 1999 2499 2199 2999 2500 100\n"
                   "charge anna c1 2024-01-10 purchase 90000\n")
        self.assertEqual(self.night("2024-02-06", "--far")[0], 0)

    def late_on(self, day: str) -> list[list[str]]:
        """The columns of `late` behind what is owed, after a roll to a day."""
        ledger("run", self.file, "--far", given=f"roll {day}\n")
        status, out, err = ledger("late", self.home)
        self.assertEqual(status, 0, err)
        return [[record[0], *record[2:]] for record in csv.reader(io.StringIO(out))][1:]

    def test_days(self) -> None:
        """On the due date nobody is late; of the first fee of 30.00 the minimum of 25.00 is the
        most; the penalty rate may be given once more than sixty days have passed."""
        found = ["anna", "1", "2024-03-01", "25.00", "0.00", "25.00"]
        self.assertEqual(self.late_on("2024-03-01"), [])
        self.assertEqual(self.late_on("2024-03-02"), [[*found, "1", "25.00", ""]])
        self.assertEqual(self.late_on("2024-03-31"), [[*found, "30", "25.00", ""]])

    def test_sixty_days(self) -> None:
        """Without a second bill the first statement stays the only one that is late."""
        found = ["anna", "1", "2024-03-01", "25.00", "0.00", "25.00"]
        self.assertEqual(self.late_on("2024-04-30"), [[*found, "60", "25.00", ""]])
        self.assertEqual(self.late_on("2024-05-01"), [[*found, "61", "25.00", "allowed"]])

    def test_newly(self) -> None:
        """A statement is newly late in the report of the night behind its due date, and in no
        other one."""
        told = []
        for day in ("2024-03-01", "2024-03-02", "2024-03-03"):
            self.assertEqual(self.night(day, "--far")[0], 0)
            told += [line for line in self.text("reports", f"{day}.txt").splitlines()
                     if line.startswith(("newly late", "  anna statement"))]
        self.assertEqual(told, ["newly late: 0", "newly late: 1",
                                "  anna statement 1, due 2024-03-01: 25.00 of 25.00 missing",
                                "newly late: 0"])


class Posts(Case):
    def test_posts(self) -> None:
        """Numbers, keys and days; cents as an amend and a found error leave them."""
        self.begin(LINES + "payment anna p1 2024-02-06 600 mail 700\n"
                           "amend anna m1 3 2024-02-05 650\ndispute anna d1 2024-02-06 2 40000\n"
                           "resolve anna r1 2024-02-06 5 30000\n")
        self.assertEqual(ledger("posts", self.file, "anna")[1], """\
anna 1 o open 2024-01-10 2024-01-06 -
anna 2 c1 charge 2024-01-10 2024-01-10 70000
anna 3 p1 payment 2024-02-06 2024-02-05 650
anna 4 m1 amend 2024-02-06 2024-02-05 650
anna 5 d1 dispute 2024-02-06 2024-02-06 40000
anna 6 r1 resolve 2024-02-06 2024-02-06 30000
""")
        self.assertEqual(ledger("posts", self.file)[1], ledger("posts", self.file, "anna")[1])
        self.expect(ledger("posts", self.file, "ben"), 1, "has no account ben")
        machine = model_of(self.file)
        book = machine.book(machine.accounts["anna"])
        self.assertEqual([book.corrected.cents[number] for number in (2, 3)], [70000, 650])


class Undo(Home):
    def test_undo(self) -> None:
        """What a file entered is voided by amends; what can't be is named."""
        self.begin(OPENING)
        before = ledger("accounts", self.file, "--owed")[1]
        self.put("cards.csv", HEADER + "anna,c1,charge,2024-02-05,purchase,500,,\n"
                                       "ben,p1,payment,2024-02-05,,700,600,mail\n"
                                       "cora,c1,charge,2024-02-05,purchase,500,,\n")
        self.put("desk.txt", "holiday 2024-02-12\nlower anna l1 2024-02-05 cash 1000\n")
        self.assertEqual(self.night("2024-02-05")[0], 1)
        path = "done/2024-02-05/cards.csv"
        done = ledger("undo", self.home, path)
        self.assertEqual(done[:2], (0, "amend anna undo-2 2 2024-02-05 0\n"
                                       "amend ben undo-2 2 2024-02-05 0\n"))
        self.assertEqual(ledger("run", self.file, given=done[1])[0], 0)
        after = ledger("accounts", self.file, "--owed")[1]
        self.assertEqual([line.split()[6:] for line in after.splitlines()],
                         [line.split()[6:] for line in before.splitlines()])
        done = ledger("undo", self.home, path)
        self.assertEqual(done[:2], (1, ""))
        self.assertIn("record 2: anna,c1,charge,2024-02-05,purchase,500,,: it is void already",
                      done[2])
        done = ledger("undo", self.home, "done/2024-02-05/desk.txt")
        self.assertEqual(done[:2], (1, ""))
        self.assertIn("line 1: holiday 2024-02-12: a holiday can't be taken back", done[2])
        self.assertIn("line 2: lower anna l1 2024-02-05 cash 1000: a lower can't be taken back",
                      done[2])
        self.expect(ledger("undo", self.home, "done/2024-02-05/none.csv"), 10, "is no file of")

    def test_sheet(self) -> None:
        """A bank's own sheet, and records by keys, are taken back as well."""
        self.begin(OPENING)
        self.put("columns/bank.toml", '[columns]\naccount = "a"\nkey = "k"\nday = "d"\n'
                 'cents = "c"\n[always]\nplace = "purchase"\nkind = "charge"\n')
        self.put("bank-1.csv", "a,k,d,c\nanna,c1,2024-02-05,5.00\nben,c1,2024-02-05,7.00\n")
        self.put("desk.csv", KEYED + "anna,c2,charge,2024-02-05,cash,900,,,\n"
                                     "anna,d1,dispute,2024-02-05,,500,,,c1\n")
        self.assertEqual(self.night("2024-02-05")[0], 0)
        done = ledger("undo", self.home, "done/2024-02-05/bank-1.csv")
        self.assertEqual(done[:2], (0, "amend anna undo-2 2 2024-02-05 0\n"
                                       "amend ben undo-2 2 2024-02-05 0\n"), done)
        done = ledger("undo", self.home, "done/2024-02-05/desk.csv")
        self.assertEqual(done[:2], (1, "amend anna undo-3 3 2024-02-05 0\n"))
        self.assertIn("record 3: anna,d1,dispute,2024-02-05,,500,,,c1: a dispute can't be taken "
                      "back", done[2])


class Keyed(Home):
    RECORDS = KEYED + "anna,d1,dispute,2024-02-06,,40000,,,c1\nanna,k1,ack,2024-02-06,,,,,d1\n" \
        "anna,p1,payment,2024-02-06,,700,600,mail,\n"

    def test_run(self) -> None:
        """Returns, disputes and amends by the keys of what they mean, in the order of files."""
        self.begin()
        done = ledger("run", self.file, given=KEYED + "anna,d1,dispute,2024-02-06,,40000,,,c1\n"
                      "anna,p1,payment,2024-02-06,,700,600,mail,\n")
        self.assertEqual(done[:2], (0, "ok 3\nok 4\n"), done)
        given = KEYED + "anna,k1,ack,2024-02-06,,,,,d1\nanna,e1,resolve,2024-02-06,,100,,,d1\n" \
            "anna,r1,return,2024-02-06,,,,,p1\nanna,m1,amend,2024-02-05,,90000,,,c1\n" \
            "anna,r2,return,2024-02-06,,,,,none\nanna,r3,return,2024-02-06,,5,,,p1\n"
        status, out, err = ledger("run", self.file, given=given)
        self.assertEqual((status, out), (1, "ok 5\nok 6\nok 7\nok 8\nbad 6 9\nbad 7 6\n"))
        self.assertIn("column 9 (of) is 'none', and no post of the account has this key yet", err)
        self.assertIn("column 6 (cents) is '5', and has to be empty for a return", err)
        self.assertEqual(ledger("rows", self.file, "--since", "7")[1], """\
ack anna k1 2024-02-06 3
resolve anna e1 2024-02-06 3 100
return anna r1 2024-02-06 4
amend anna m1 2 2024-02-05 90000
""")

    def test_night(self) -> None:
        """A file may name the keys of one before it, of the same night."""
        self.begin(OPENING)
        self.put("a.csv", HEADER + "anna,c1,charge,2024-02-05,purchase,500,,\n")
        self.put("b.csv", KEYED + "anna,d1,dispute,2024-02-05,,500,,,c1\n")
        self.put("c.csv", KEYED + "anna,k1,ack,2024-02-05,,,,,d1\n")
        self.assertEqual(self.night("2024-02-05")[0], 0)
        self.assertEqual(ledger("rows", self.file, "--since", "4")[1],
                         "charge anna c1 2024-02-05 purchase 500\n"
                         "dispute anna d1 2024-02-05 2 500\n"
                         "ack anna k1 2024-02-05 3\n")


class Version(Case):
    def test_version(self) -> None:
        status, out, _ = ledger("version")
        self.assertEqual(status, 0)
        for front in ("program /", "sha256 ", "commit ", "kit ", "companion ", "format of rows 2"):
            self.assertIn("\n" + front, "\n" + out)
        self.assertEqual(ledger("--version")[0], 0)
        self.assertEqual(ledger("--help")[0], 0)


class Kept(Case):
    def test_keep(self) -> None:
        """The last backup of each of three days, two weeks and two months stays, and no other."""
        self.begin("feerow 2011-01-02 3000 4100\nroll 2024-01-10\n")
        folder = self.at("saved")
        for day in ("2024-01-30", "2024-01-31", "2024-02-03", "2024-02-04", "2024-02-09",
                    "2024-02-10", "2024-02-12"):
            ledger("run", self.file, given=f"roll {day}\n")
            self.assertEqual(ledger("backup", self.file, folder)[0], 0)
        done = ledger("backup", self.file, folder, "--keep", "3d,2w,2m")
        self.assertEqual(done[0], 0)
        # days 10 to 12; the weeks from Monday 5 and from Monday 12; January and February
        self.assertEqual([name[5:15] for name in sorted(os.listdir(folder)) if
                          name.endswith(".db")], ["2024-01-31", "2024-02-10", "2024-02-12"])
        self.assertIn("rows-2024-02-09-7.db is removed, as --keep says", done[2])
        self.assertEqual(len(os.listdir(folder)), 6)
        self.expect(ledger("backup", self.file, folder, "--keep", "3x"), 2, "'3x' isn't as 14d")
