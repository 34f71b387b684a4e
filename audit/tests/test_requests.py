"""Worked requests: replies, keys, kept rows, CSV, words."""

import unittest

from audit import days
from audit.commands import Keeper
from audit.days import day_of, day_text
from audit.machine import Machine
from audit.rows import decode, encode

from .session import START, Session, request_of, started

FIRST_DAY = ["roll 2024-03-01", "open a o 2024-03-01 5 1999 2499 2199 2999 2500 100",
             "charge a c1 2024-03-01 purchase 1250", "show a"]
FIRST_REPLIES = ["ok", "ok 1", "ok 2", "show a 2024-03-01 owed 1250 credit 0 held 0"]


class Replies(unittest.TestCase):
    def test_first_day(self) -> None:
        p = Session()
        self.assertEqual(p.apply(*FIRST_DAY), FIRST_REPLIES)
        self.assertEqual(len(p.keeper.rows), 3)
        self.assertEqual(p.keeper.rows[0][1].hex(), "020112c8")
        out, status = Session().run("apply", data="\n".join(FIRST_DAY).encode())
        self.assertEqual((out.decode().splitlines(), status), (FIRST_REPLIES, 0))

    def test_sent_again(self) -> None:
        p = Session()
        p.apply(*FIRST_DAY)
        self.assertEqual(p.apply(*FIRST_DAY), ["no 27 RollBack 2024-03-01", "ok 1", "ok 2",
                                               FIRST_REPLIES[3]])
        self.assertEqual(p.status(*FIRST_DAY), 1)
        self.assertEqual(len(p.keeper.rows), 3)
        self.assertEqual(p.last("charge a c1 2024-03-01 purchase 9"), "no 3 KeyReused 2")
        self.assertEqual(p.last("open z o 2024-03-01 29 1999 2499 2199 2999 2500 100"),
                         "no 4 BadTerms 1")

    def test_nothing_sent(self) -> None:
        p = Session()
        self.assertEqual(p.run("apply"), (b"", 0))
        self.assertEqual(p.keeper.rows, [])

    def test_amounts_and_days(self) -> None:
        p = started()
        self.assertEqual(p.apply("charge a c1 2024-01-10 purchase 1000000001",
                                 "charge a c1 2024-01-10 purchase 1000000000000",
                                 "charge a c1 2024-01-10 purchase 1000000000",
                                 "charge z c1 2024-01-10 purchase 1", START[2],
                                 "charge a c9 2024-01-05 purchase 1",
                                 "charge a c9 2024-01-11 purchase 1"),
                         ["no 5 AmountRange", "bad 2 6", "ok 2", "no 1 UnknownAccount", "ok 1",
                          "no 7 DayBeforeOpen", "no 6 DayAhead"])

    def test_bills(self) -> None:
        p = Session()
        p.apply("roll 2024-04-06", "open b o 2024-04-06 5 1999 1999 2199 2999 2500 100",
                "charge b c1 2024-04-06 cash 100000", "roll 2024-05-06")
        self.assertEqual(p.last("show b"), "show b 2024-05-06 owed 101643 credit 0 held 0")
        self.assertEqual(p.apply("bill b b1 1", "bill b b1 1", "bill b b2 1", "bill b b3 2"),
                         ["ok 3", "ok 3", "no 13 WrongEntry 3", "no 22 NotClosed 2024-06-05"])

    def test_full_account(self) -> None:
        p = Session()
        lines = list(START) + [f"askrefund a k{i} 2024-01-10" for i in range(9)]
        for n in range(1, 1000):
            day = day_text(day_of("2024-01-10") + n)
            lines.append(f"roll {day}")
            lines += [f"askrefund a k{n}-{i} {day}" for i in range(10)]
        lines.append(f"askrefund a last {day}")
        replies = p.apply(*lines)
        self.assertTrue(all(r.startswith("ok") for r in replies))
        self.assertEqual(replies[-2:], ["ok 10000", "ok 10001"])
        few = Machine(post_limit=3)
        refused = [few.apply(request_of(line)).refused for line in lines[:7]]
        self.assertEqual([r.number if r else None for r in refused], [None] * 5 + [25, 25])

    def test_words_of_commands(self) -> None:
        out, status = Session().run("now")
        self.assertEqual((out[:16], status), (b"usage: apply | i", 2))
        self.assertEqual(Session().run("apply", "now")[1], 2)
        self.assertEqual(Session().run("statement", "a", "1"), (b"none\n", 1))


class Lines(unittest.TestCase):
    def test_index_rows(self) -> None:
        self.assertEqual(Session().last("index 2024-04-01 550"), "ok")
        machine = Machine()
        for line, refused in (("index 2011-01-01 550", 29), ("index 2024-01-01 10000", 5),
                              ("index 2024-01-01 550", None)):
            reply = machine.apply(request_of(line)).refused
            self.assertEqual(reply.number if reply else None, refused)

    def test_days_of_a_trial_balance(self) -> None:
        for words, status in (("2024-01-01 2024-01-02", 0), ("2024-01-01 2024-01-01", 0),
                              ("2024-01-02 2024-01-01", 2), ("2024-01-01", 2),
                              ("2010-12-31 2024-01-01", 2), ("2024-01-01 2100-01-01", 2),
                              ("2011-01-01 2099-12-31", 0)):
            self.assertEqual(Session().run("trial", *words.split())[1], status)


class KeptRows(unittest.TestCase):
    def rows(self) -> list[tuple[int, bytes]]:
        p = Session()
        p.apply(*FIRST_DAY)
        return p.keeper.rows

    def damaged(self, rows: list[tuple[int, bytes]]) -> str:
        p = Session(rows)
        out, status = p.run("apply")
        self.assertEqual(status, 8 if out else 0)
        return out.decode().strip()

    def test_damaged(self) -> None:
        rows = self.rows()
        self.assertEqual(self.damaged(list(rows)), "")
        self.assertEqual(self.damaged([(2, rows[0][1])]), "damaged 1")
        self.assertEqual(self.damaged([rows[0], (2, rows[2][1])]), "damaged 2")
        self.assertEqual(self.damaged(rows + [(4, rows[2][1])]), "damaged 4")
        self.assertEqual(self.damaged(rows[:2] + [(3, rows[2][1][:-1])]), "damaged 3")
        for n in (1, 2, 3):
            for body in (b"\x09" + rows[n - 1][1][1:], b""):
                bad = list(rows)
                bad[n - 1] = (n, body)
                self.assertEqual(self.damaged(bad), f"damaged {n}")

    def test_both_formats(self) -> None:
        for line, one, two in (
                ("roll 2024-01-28", "010100004d26", "020112a7"),
                ("charge h-1 c1 2023-12-29 purchase 1100",
                 "010503682d3102633100004d0800000000000000044c",
                 "020503682d3102633112890002044c")):
            request = request_of(line)
            self.assertEqual((encode(request, 1).hex(), encode(request, 2).hex()), (one, two))
            self.assertEqual(decode(bytes.fromhex(one)), request)
            self.assertEqual(decode(bytes.fromhex(two)), request)
        for line, two in (
                ("roll 2011-01-01", "02010000"), ("roll 2099-12-31", "02017efa"),
                ("index 2024-04-01 550", "021512e7020226"), ("index 2011-01-01 0", "0215000000"),
                ("openvar h-1 o 2023-12-29 28 1449 1949 1649 2999 2500 100",
                 "021603682d31016f1289011c0205a902079d020671020bb70209c40164")):
            request = request_of(line)
            self.assertEqual(encode(request, 2).hex(), two)
            self.assertEqual(decode(bytes.fromhex(two)), request)
        for none in ("", "02", "0201", "02010112a7", "020112a700", "02017efb", "03010000",
                     "021512e703000226", "021512e70226", "021512e70600000000000226",
                     "021500000100", "011500004d660000000000000226"):
            self.assertIsNone(decode(bytes.fromhex(none)), none)

    def test_rows_of_both_formats_load(self) -> None:
        old = self.rows()
        new = [request_of("index 2024-04-01 550"), request_of("charge a c2 2024-03-01 purchase 5")]
        rows = old + [(n, encode(r, 2)) for n, r in enumerate(new, start=4)]
        machine = Keeper(rows).machine()
        self.assertEqual(machine.index_rows, [(day_of("2024-04-01"), 550)])
        self.assertEqual(machine.show("a"), (day_of("2024-03-01"), 1255, 0, 0))


class Import(unittest.TestCase):
    HEADER = b"account,key,kind,day,place,cents,minute,channel\n"
    FILE = (HEADER + b"a,c1,charge,2024-01-08,purchase,1100,,\n"
            b"a,p1,payment,2024-01-09,,500,600,online\n")

    def test_sent_again(self) -> None:
        p = started()
        self.assertEqual(p.run("import", data=self.FILE), (b"ok 2\nok 3\n", 0))
        kept, entries = list(p.keeper.rows), p.text("export", "a")
        self.assertEqual(p.run("import", data=self.FILE), (b"ok 2\nok 3\n", 0))
        self.assertEqual(p.run("import", data=self.FILE.replace(b"1100", b"1101")),
                         (b"no 3 KeyReused 2\nok 3\n", 1))
        self.assertEqual((p.keeper.rows, p.text("export", "a")), (kept, entries))

    def test_bad_records(self) -> None:
        p = started()

        def replies(data: bytes) -> list[str]:
            return p.text("import", data=data).splitlines()

        self.assertEqual(replies(self.HEADER + b"a,c1,charge,2024-01-08,purchase,1100,\n"),
                         ["bad 2 8"])
        self.assertEqual(replies(b"account,key,kind,day,place,cents,minute\n"), ["bad 1 8"])
        self.assertEqual(replies(self.HEADER + b"a,c1,fee,2024-01-08,purchase,1100,,\n"),
                         ["bad 2 3"])


class Demonstration(unittest.TestCase):
    def test_no_account(self) -> None:
        self.assertEqual(Session().run("demo", "1", "0", "1"),
                         (b"requests 3\naccepted 3\nrefused 0\nowed 0.00\ninterest 0.00\n"
                          b"fees 0.00\n", 0))

    def test_twenty_accounts(self) -> None:
        self.assertEqual(Session().text("demo", "1", "20", "6").splitlines()[:3],
                         ["requests 868", "accepted 868", "refused 0"])


class Days(unittest.TestCase):
    def test_time_passes(self) -> None:
        p = started()
        p.apply("roll 2024-01-11")
        for _ in range(2):
            self.assertEqual(p.last("show a"), "show a 2024-01-11 owed 0 credit 0 held 0")

    def test_dates_of_cycles(self) -> None:
        a = days.Anchor(day_of("2023-02-01"), 28)
        self.assertEqual(days.closing(a, 1), day_of("2023-02-28"))
        self.assertEqual(days.due(a, 1), day_of("2023-03-24"))
        self.assertEqual(days.due_day(a, 1) - days.closing_day(a, 1), 24)
        b = days.Anchor(day_of("2024-01-06"), 5)
        self.assertEqual((days.closing(b, 1), days.due(b, 1)),
                         (day_of("2024-02-05"), day_of("2024-03-01")))
        self.assertEqual(days.closing(b, 2), day_of("2024-03-05"))

    def test_cut_off(self) -> None:
        a = days.Anchor(day_of("2024-10-01"), 28)
        r = day_of("2024-11-24")
        self.assertEqual(days.credit_day(a, r, 1020, "online", frozenset()), r)
        self.assertEqual(days.credit_day(a, r, 1021, "online", frozenset()), r + 1)


if __name__ == "__main__":
    unittest.main()
