"""Worked statements, disputes, tasks, repayments and trial balances."""

import json
import unittest

from audit import days, repay
from audit.days import Anchor, day_of, day_text
from audit.fold import break_days
from audit.repay import Owing
from audit.tasks import resolve_by
from audit.words import WORDS

from .session import START, Session, started


def disputable() -> Session:
    p = Session()
    p.apply("roll 2024-02-16", "open d o 2024-01-16 15 1999 2499 2199 2999 2500 100",
            "charge d c1 2024-02-01 purchase 5000", "bill d b1 1", "roll 2024-04-17")
    return p


class Disputes(unittest.TestCase):
    def test_sixty_days(self) -> None:
        p = disputable()
        self.assertEqual(p.last("dispute d x1 2024-04-17 2 5000"), "no 19 DisputeLate 2024-04-16")
        replies = p.apply("dispute d x1 2024-04-16 2 5000", "show d")
        self.assertEqual(replies[0], "ok 4")
        self.assertTrue(replies[1].endswith(" held 5000"))

    def test_resolve_day(self) -> None:
        a = Anchor(day_of("2024-01-16"), 15)
        self.assertEqual(resolve_by(a, day_of("2024-03-20")), day_of("2024-06-15"))
        self.assertEqual(resolve_by(a, day_of("2024-03-16")), day_of("2024-06-14"))

    def test_tasks(self) -> None:
        p = disputable()
        p.apply("dispute d x1 2024-04-16 2 5000")
        self.assertEqual(p.run("work"),
                         (b"2024-05-16 d ACK 4\n2024-07-15 d RESOLVE 4\n", 0))

    def test_resolved(self) -> None:
        for confirmed in (5000, 2000):
            p = disputable()
            p.apply("dispute d x1 2024-04-16 2 5000")
            if confirmed == 5000:
                self.assertEqual(p.apply("dispute d x2 2024-04-16 2 100",
                                         "resolve d y0 2024-04-17 4 5001",
                                         "ack d k1 2024-04-17 2",
                                         "resolve d y1 2024-04-17 4 5000",
                                         "ack d k2 2024-04-17 4", "show d"),
                                 ["no 20 DisputeKnown 4", "no 5 AmountRange", "no 13 WrongEntry 2",
                                  "ok 5", "no 21 NoOpenDispute",
                                  "show d 2024-04-17 owed 0 credit 0 held 0"])
            else:
                self.assertEqual(p.apply("resolve d y1 2024-04-17 4 2000", "show d"),
                                 ["ok 5", "show d 2024-04-17 owed 3100 credit 0 held 0"])
                self.assertEqual([c.interest for c in p.cycles("d")], [{}, {2: 48}, {2: 52}])
                holds = [line for line in p.text("export", "d").splitlines() if "hold" in line]
                self.assertEqual(holds, ["2024-04-16,purchase:2,hold,4,-3000",
                                         "2024-04-16,held,hold,4,3000",
                                         "2024-04-17,held,hold,5,-3000",
                                         "2024-04-17,purchase:2,hold,5,3000"])


class TwoYears(unittest.TestCase):
    def test_correction_and_back(self) -> None:
        p = started()
        a = Anchor(day_of("2024-01-06"), 5)
        lines = []
        for k in range(1, 26):
            charge_day = day_text(days.closing_day(a, k) - 26 if k == 1
                                  else days.closing_day(a, k - 1) + 5)
            if k > 1:
                lines += [f"roll {charge_day}"]
            lines += [f"charge a c{k} {charge_day} purchase 1000"]
            if k < 25:
                lines += [f"roll {day_text(days.closing_day(a, k) + 1)}", f"bill a b{k} {k}"]
        self.assertEqual(lines[0], "charge a c1 2024-01-10 purchase 1000")
        replies = p.apply(*lines)
        self.assertTrue(all(r.startswith("ok") for r in replies))
        self.assertEqual(p.last("show a").split()[2], "2026-01-10")
        before = p.cycles("a")
        self.assertEqual(len(before), 24)
        texts = [p.text("statement", "a", str(k)) for k in range(1, 25)]
        today = day_of("2026-01-10")
        self.assertEqual(break_days(p.book("a"), days.closing_day(a, 24) + 1, today),
                         {day_of("2026-01-06"), today})
        charge = replies[lines.index("charge a c2 2024-02-10 purchase 1000")].split()[1]
        self.assertTrue(p.last(f"amend a m1 {charge} 2024-02-10 2000").startswith("ok"))
        self.assertNotEqual(p.cycles("a"), before)
        self.assertEqual(len(break_days(p.book("a"), days.closing_day(a, 1) + 1, today)), 94)
        self.assertEqual([p.text("statement", "a", str(k)) for k in range(1, 25)], texts)
        self.assertTrue(p.last(f"amend a m2 {charge} 2024-02-10 1000").startswith("ok"))
        self.assertEqual(p.cycles("a"), before)
        self.assertEqual([p.text("statement", "a", str(k)) for k in range(1, 25)], texts)


class BreakDays(unittest.TestCase):
    def test_two_cycles(self) -> None:
        p = started()
        p.apply("roll 2024-03-10")
        found = break_days(p.book("a"), day_of("2024-01-06"), day_of("2024-03-10"))
        self.assertEqual(sorted(map(day_text, found)),
                         ["2024-01-06", "2024-02-05", "2024-03-02", "2024-03-05"])


class StatementText(unittest.TestCase):
    LINES = (["feerow 2011-01-02 3000 4100", "roll 2024-01-28",
              "open h-1 o 2023-12-29 28 1999 2499 2499 2999 2500 100"]
             + [f"charge h-1 c{i} {day_text(day_of('2023-12-29') + i - 1)} purchase "
                f"{1000 + 100 * i}" for i in range(1, 32)]
             + ["payment h-1 p1 2024-01-15 600 online 20000",
                "credit h-1 r1 2024-01-20 purchase 2500", "roll 2024-01-29", "bill h-1 b1 1"])

    @staticmethod
    def expected() -> str:
        charges = {i: f"{day_text(day_of('2023-12-29') + i - 1)} CHARGE     {i + 1:>6} "
                      f"{str(10 + i) + '.00':>14}" for i in range(1, 32)}
        lines = ["STATEMENT h-1 CYCLE 1", "PERIOD 2023-12-29 TO 2024-01-28",
                 "PREVIOUS BALANCE                       0.00",
                 "EARLIER CORRECTIONS                    0.00"]
        for i in range(1, 32):
            lines.append(charges[i])
            if i == 18:
                lines.append("2024-01-15 PAYMENT        33        -200.00")
            if i == 23:
                lines.append("2024-01-20 CREDIT         34         -25.00")
        lines += ["FEES THIS PERIOD                       0.00",
                  "INTEREST THIS PERIOD                   0.00",
                  "FEES THIS YEAR                         0.00",
                  "INTEREST THIS YEAR                     0.00",
                  "NEW BALANCE                          581.00",
                  "IN DISPUTE                             0.00",
                  "MINIMUM PAYMENT                       25.00",
                  "PAYMENT DUE DATE                 2024-02-24",
                  "RATE purchase:2    19.99%  0.000547671           0.00           0.00",
                  "LATE PAYMENT FEE UP TO 41.00 AND RATE UP TO 29.99%"]
        assert lines[4] == "2023-12-29 CHARGE          2          11.00"
        assert lines[21] == "2024-01-15 CHARGE         19          28.00"
        assert "2024-01-20 CHARGE         24          33.00" in lines
        assert "2024-01-28 CHARGE         32          41.00" in lines
        return "".join(line + "\n" for line in lines)

    @staticmethod
    def body(line: str) -> bytes:
        """The JSON body of a line."""
        words = line.split()
        members: dict[str, object] = {"kind": words[0]}
        for (name, form), word in zip(WORDS[words[0]][1], words[1:]):
            members[name] = int(word) if form == "number" else word
        return json.dumps(members, separators=(",", ":")).encode()

    def post(self, p: Session, line: str) -> bytes:
        body = self.body(line)
        return p.answer(b"POST /posts HTTP/1.1\r\nContent-Length: %d\r\n\r\n" % len(body) + body)

    def test_over_http(self) -> None:
        p = Session()
        answers = [self.post(p, line) for line in self.LINES]
        self.assertEqual(self.body(self.LINES[3]),
                         b'{"kind":"charge","account":"h-1","key":"c1","day":"2023-12-29",'
                         b'"place":"purchase","cents":1100}')
        self.assertEqual(len(self.body(self.LINES[3])), 95)
        self.assertEqual(answers[3],
                         b"HTTP/1.1 200 OK\r\nContent-Type: application/json\r\n"
                         b"Content-Length: 8\r\nConnection: close\r\n\r\n" b'{"ok":2}')
        self.assertTrue(answers[0].endswith(b'{"ok":0}'))
        self.assertTrue(answers[-1].endswith(b'{"ok":35}'))
        got = p.answer(b"GET /accounts/h-1/statements/1 HTTP/1.1\r\n\r\n")
        head, _, body = got.partition(b"\r\n\r\n")
        self.assertIn(b"Content-Type: text/plain; charset=utf-8\r\n", head + b"\r\n")
        self.assertEqual(body.decode(), self.expected())

    def test_by_apply(self) -> None:
        p = Session()
        p.apply(*self.LINES)
        self.assertEqual(p.text("statement", "h-1", "1"), self.expected())


class Repayment(unittest.TestCase):
    def test_two_lines(self) -> None:
        p = started()
        p.apply("plan a pl 2024-01-10 promo 0 2024-08-05 1999",
                "charge a c1 2024-01-10 plan:2 10000",
                "roll 2024-02-06", "bill a b1 1")
        self.assertEqual(p.run("repay", "a", "1"),
                         (b"MINIMUM ONLY MONTHS 4 TOTAL 100.00\n"
                          b"THIRTY-SIX MONTHS PAYMENT 2.78 TOTAL 100.00\n", 0))
        self.assertEqual(p.run("repay", "a", "2"), (b"none\n", 1))

    def test_ends(self) -> None:
        self.assertIsNone(repay.at_minimum([Owing(10000, 1999)], 0, 0))
        self.assertEqual(repay._month_interest([10000], [1999]), [164])
        self.assertEqual(repay.in_36([Owing(1, 1999)]), (1, 1))
        self.assertEqual((repay.at_minimum([], 2500, 100), repay.in_36([])), ((0, 0), (0, 0)))


class TrialBalance(unittest.TestCase):
    ZEROS = [f"{kind} 0.00 0.00" for kind in
             ("charge", "credit", "payment", "return", "refund", "fee", "interest", "hold")]

    def test_first_day(self) -> None:
        p = Session()
        p.apply(*START, "charge a c1 2024-01-10 purchase 1250")
        self.assertEqual(p.text("trial", "2024-01-10", "2024-01-10").splitlines(),
                         ["charge 12.50 0.00", *self.ZEROS[1:], "total 12.50 0.00",
                          "change 12.50"])

    def test_holds(self) -> None:
        p = disputable()
        p.apply("dispute d x1 2024-04-16 2 5000")
        words = ("trial", "2024-04-16", "2024-04-16")
        self.assertEqual(p.text(*words).splitlines(),
                         self.ZEROS[:-1] + ["hold 50.00 50.00", "total 50.00 50.00",
                                            "change 0.00"])
        p.apply("resolve d y1 2024-04-17 4 5000")
        self.assertEqual(p.text(*words).splitlines(),
                         self.ZEROS + ["total 0.00 0.00", "change 0.00"])
        self.assertEqual(p.run("trial", "2024-04-17", "2024-04-16")[1], 2)


if __name__ == "__main__":
    unittest.main()
