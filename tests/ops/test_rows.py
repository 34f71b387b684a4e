"""Rows of both formats by worked bytes, closings and last days by the calendar, and what a look
leaves as it was."""

import os
import unittest
from datetime import date

from tests.support.program import TOP, Session

from .common import HEADER, LINES, Case, Told, ledger

from companion.days import closed_cycles, closing, due, last_bill_day
from companion.home import read_toml
from companion.rows import NoSpelling, decode

WORKED = (
    ("010100004d47", "roll 2024-03-01"),
    ("01040161016f00004d47000000000000000500000000000007cf00000000000009c300000000000008970000"
     "000000000bb700000000000009c40000000000000064",
     "open a o 2024-03-01 5 1999 2499 2199 2999 2500 100"),
    ("0105016102633100004d470000000000000004e2", "charge a c1 2024-03-01 purchase 1250"),
    ("0105016102633100004d4703000000000000000700000000000004e2",
     "charge a c1 2024-03-01 plan:7 1250"),
    ("01140161026231" + "0000000000000001", "bill a b1 1"),
    ("020112a7", "roll 2024-01-28"),
    ("020503682d3102633112890002044c", "charge h-1 c1 2023-12-29 purchase 1100"),
    ("0205016102633112c803010700", "charge a c1 2024-03-01 plan:7 0"),
    ("0214016102623101" + "01", "bill a b1 1"),
    ("021512e7020226", "index 2024-04-01 550"),
    ("0215000000", "index 2011-01-01 0"),
    ("02017efa", "roll 2099-12-31"),
    ("021603682d31016f1289011c0205a902079d020671020bb70209c40164",
     "openvar h-1 o 2023-12-29 28 1449 1949 1649 2999 2500 100"),
    ("0216" + "0161" + "016f" + "12c8" + "0105" + "0207cf" + "0209c3" + "020897" + "020bb7"
     + "0209c4" + "0164",
     "openvar a o 2024-03-01 5 1999 2499 2199 2999 2500 100"),
)

NONE = (
    ("", "fewer than two bytes"),
    ("030100004d47", "its format is 3"),
    ("011500004d4700000000000000", "its code 21 is no request's"),
    ("021712a7", "its code 23 is no request's"),
    ("010100004d", "its bytes end inside a field"),
    ("010100004d4700", "bytes stand behind its last field"),
    ("01010000ffff", "a day lies outside"),
    ("02010112a7", "bytes stand behind its last field"),
    ("020112a700", "bytes stand behind its last field"),
    ("02017efb", "a day lies outside"),
    ("021512e703000226", "isn't spelled in the shortest way"),
    ("021500000100", "isn't spelled in the shortest way"),
    ("021512e70600000000000226", "isn't spelled in the shortest way"),
    ("021512e70226", "its bytes end inside a field"),
    ("0114015f0262310000000000000001", "a name isn't of its form"),
    ("0114016102623100000000ffffffff" + "ff", "bytes stand behind its last field"),
    ("011401610262310000ffffffffffff", "a number has more than 12 digits"),
    ("021401610262310200" + "01", "isn't spelled in the shortest way"),
    ("02140161026231" + "06010101010101", "isn't spelled in the shortest way"),
    ("0105016102633100004d4704", "a place is none"),
    ("010d01610263310000" + "4d4702", "a choice is none"),
)


class Rows(unittest.TestCase):
    def test_spellings(self) -> None:
        for bytes_of, line in WORKED:
            self.assertEqual(decode(bytes.fromhex(bytes_of)).line(), line)

    def test_no_spellings(self) -> None:
        for bytes_of, why in NONE:
            with self.assertRaises(NoSpelling) as found:
                decode(bytes.fromhex(bytes_of))
            self.assertIn(why, str(found.exception), bytes_of)

    def test_calendar(self) -> None:
        """Closings on the 5th from an opening on the 6th; due dates 24 days on, or on the 1st;
        bills up to 21 days before."""
        opened = date(2024, 1, 6)
        self.assertEqual([closing(opened, 5, cycle) for cycle in (1, 2, 12)],
                         [date(2024, 2, 5), date(2024, 3, 5), date(2025, 1, 5)])
        self.assertEqual(closing(date(2024, 1, 5), 5, 1), date(2024, 1, 5))
        for today, cycles in ((date(2024, 2, 5), 0), (date(2024, 2, 6), 1), (date(2024, 3, 5), 1),
                              (date(2024, 3, 6), 2), (date(2024, 1, 6), 0)):
            self.assertEqual(closed_cycles(opened, 5, today), cycles, today)
        for closed, payment, last in ((date(2024, 2, 5), date(2024, 3, 1), date(2024, 2, 9)),
                                      (date(2026, 3, 28), date(2026, 4, 24), date(2026, 4, 3)),
                                      (date(2024, 2, 4), date(2024, 2, 28), date(2024, 2, 7)),
                                      (date(2024, 12, 5), date(2025, 1, 1), date(2024, 12, 11))):
            self.assertEqual((due(closed), last_bill_day(closed)), (payment, last))


class Looks(Case):
    def test_words(self) -> None:
        self.begin(LINES + "open ben o 2024-02-06 6 1999 2499 2199 2999 2500 100\n")
        self.assertEqual(ledger("today", self.file)[:2], (0, "2024-02-06\n"))
        self.assertEqual(ledger("accounts", self.file)[:2],
                         (0, "anna 2024-01-06 5 2 1 0\nben 2024-02-06 6 1 0 0\n"))
        done = ledger("due", self.file)
        self.assertEqual(done, (0, "anna 1 2024-02-05 2024-02-09\n", "due: 1 bill on 2024-02-06\n"))
        self.assertEqual(ledger("rows", self.file)[1], LINES
                         + "open ben o 2024-02-06 6 1999 2499 2199 2999 2500 100\n")
        self.assertEqual(ledger("rows", self.file, "--since", "4")[1].count("\n"), 2)

    def test_bills(self) -> None:
        """A key that is taken isn't given again, and a bill that was sent isn't due."""
        self.begin(LINES + "charge anna bill-1 2024-02-06 purchase 100\n")
        self.assertEqual(ledger("bills", self.file)[1], "bill anna bill-1.2 1\n")
        self.assertEqual(ledger("run", self.file, given="bill anna bill-1.2 1\n")[:2],
                         (0, "ok 4\n"))
        self.assertEqual(ledger("bills", self.file)[1], "")
        ledger("run", self.file, "--far", given="roll 2024-03-13\n")
        self.expect(ledger("due", self.file), 0,
                    "due: 1 bill on 2024-03-13, 1 of them too late to ask for a payment")

    def test_nothing_changes(self) -> None:
        """A run was killed, so its rows are in the log. A look leaves the file and the log as they
        are, with nothing beside them."""
        with Session([self.file, "apply"]) as session:
            session.write(LINES.encode())
            for _ in LINES.splitlines():
                session.read_line()
            session.kill()
        before = self.contents()
        self.assertIn("rows.db-wal", before)
        for word in ("today", "accounts", "due", "bills", "rows", "seal", "check"):
            self.assertEqual(ledger(word, self.file)[0], 0, word)
            self.assertEqual(self.contents(), before, word)
        self.assertEqual(ledger("today", self.file)[1], "2024-02-06\n")

    def contents(self) -> dict[str, tuple[bytes, int, int]]:
        found = {}
        for name in os.listdir(self.room):
            with open(self.at(name), "rb") as file:
                found[name] = (file.read(), os.stat(self.at(name)).st_mtime_ns,
                               os.stat(self.at(name)).st_mode)
        return found


class Convert(Case):
    COLUMNS = """# as the bank has them
separator = ";"
encoding = "latin-1"
skip = 1
point = ","
thousands = "."
date = "DD.MM.YYYY"

[columns]
account = "Card"
key = "Reference"
kind = "Type"
day = "Booked"
place = "Type"
cents = "Amount"
minute = "Time"

[always]
channel = "online"

[kinds]
"POS" = "charge"
"ATM" = "charge"
"REFUND" = "credit"
"PAY" = "payment"

[places]
"POS" = "purchase"
"ATM" = "cash"
"REFUND" = "purchase"
"""
    SHEET = """Export of 2.3.2026
Card;Reference;Type;Booked;Time;Amount;Text
anna;r1;POS;01.03.2026;;1.234,56;B\xe4ckerei
anna;r2;ATM;01.03.2026;;20,00;"a; b"
ben;r3;PAY;02.03.2026;17:05;1.000;
ben;r4;REFUND;2.3.2026;;9,87;
"""
    RECORDS = HEADER + """anna,r1,charge,2026-03-01,purchase,123456,,
anna,r2,charge,2026-03-01,cash,2000,,
ben,r3,payment,2026-03-02,,100000,1025,online
ben,r4,credit,2026-03-02,purchase,987,,
"""

    def convert(self, columns: str, sheet: str) -> Told:
        return ledger("convert", self.write("columns.toml", columns), given=sheet.encode("latin-1"))

    def test_sheet(self) -> None:
        done = self.convert(self.COLUMNS, self.SHEET)
        self.assertEqual(done, (0, self.RECORDS, "convert: 4 records: 2 charges 1,254.56, "
                                "1 payment 1,000.00, 1 credit 9.87\n"))

    def test_unclear(self) -> None:
        """One table of all that isn't understood, and nothing on standard output."""
        sheet = self.SHEET + (
            "ben;r5;FEE;02.03.2026;;1,00;\n"
            "ben;r6;POS;31.02.2026;;1,00;\n"
            "ben;r7;POS;01.03.2026;;1,0;\n"
            "ben;r1 x;POS;01.03.2026;;1,00;\n"
            "ben;r8;POS;01.03.2026;;-1,00;\n"
            "ben;r4;POS;01.03.2026;;1,00;\n"
            "ben;r9;PAY;01.03.2026;25:00;1,00;\n"
            "ben;r9;PAY\n")
        status, out, err = self.convert(self.COLUMNS, sheet)
        self.assertEqual((status, out), (1, ""))
        self.assertEqual(err, """record | column | what it has | why it isn't understood
6 | Type | FEE | none of charge, credit, payment
7 | Booked | 31.02.2026 | no day of the calendar
8 | Amount | 1,0 | no amount with units, ',' and two digits
9 | Reference | r1 x | not of the form of this field (name)
10 | Amount | -1,00 | an amount below 0, and [signs] doesn't say what it is
11 | Reference | r4 | record 5 has the same key of this account
12 | Time | 25:00 | no time of the day
13 |  | 3 | the header has 7 columns
convert: 8 of 12 records not understood; nothing was written
""")

    def test_signs(self) -> None:
        columns = (
            'date = "MM/DD/YY"\n[columns]\naccount = "a"\nkey = "k"\nday = "d"\ncents = "c"\n'
            '[always]\nplace = "purchase"\nminute = 600\nchannel = "mail"\n'
            '[signs]\nplus = "charge"\nminus = "payment"\n')
        done = self.convert(columns,
                            "a,k,d,c\nanna,1,03/02/26,$5.00\nanna,2,3/2/26,(7.25)\n"
                            "anna,3,03/02/26,8.00-\n")
        self.assertEqual(done[:2],
                         (0, HEADER + "anna,1,charge,2026-03-02,purchase,500,,\n"
                                      "anna,2,payment,2026-03-02,,725,600,mail\n"
                                      "anna,3,payment,2026-03-02,,800,600,mail\n"))

    def test_refused(self) -> None:
        """A cut sheet, a column that isn't there, and a description that isn't understood: status
        10, and nothing is written."""
        for columns, sheet, why in (
            (self.COLUMNS, self.SHEET[:-1], "its last line may be cut"),
            (self.COLUMNS, self.SHEET.replace("Booked", "Day"),
             "the input has 0 columns 'Booked', for day"),
            (self.COLUMNS.replace("latin-1", "utf-8"), self.SHEET, "can't be read as utf-8"),
            (self.COLUMNS.replace("skip = 1", "skip = x"), self.SHEET,
             "columns.toml isn't understood: Invalid value (at line 4, column 8)"),
            (self.COLUMNS.replace("skip", "skp"), self.SHEET, "'skp' is none of separator"),
            (self.COLUMNS.replace("DD.MM.YYYY", "DD.MM."), self.SHEET,
             "has to name YYYY or YY, MM and DD"),
        ):
            done = self.convert(columns, sheet)
            self.expect(done, 10, why)
            self.assertEqual(done[1], "")

    def test_example(self) -> None:
        folder = os.path.join(TOP, "examples", "sheet")
        with open(os.path.join(folder, "bank.csv"),
                  "rb") as sheet, open(os.path.join(folder, "records.csv"),
                                       encoding="ascii") as records:
            self.assertEqual(ledger("convert", os.path.join(folder, "columns.toml"),
                                    given=sheet.read())[:2], (0, records.read()))

    def test_toml(self) -> None:
        path = self.write("some.toml", 'a = "x \\"y\\" \\\\" # c\nb = -3\nc = true\n[s]\n"k 1" = '
                                       '\'\\n\'\n\n[t] # d\n')
        self.assertEqual(read_toml(path),
                         {"a": 'x "y" \\', "b": -3, "c": True, "s": {"k 1": "\\n"}, "t": {}})
