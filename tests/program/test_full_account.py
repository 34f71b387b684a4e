"""An account takes 200,000 posts; a repeat of one of them still gets its old number."""

import datetime

from tests.support.case import Case
from tests.support.program import apply

from .lines import LINES

MOST = 200_000
DAYS = 1000
FIRST = datetime.date(2024, 1, 10)
TERMS = "1999 2499 2199 2999 2500 100"
SECONDS = 600


class FullAccount(Case):
    def test_full(self) -> None:
        lines = LINES[:2] + [f"askrefund a k{count} 2024-03-01" for count in range(2, MOST + 2)]
        done = apply("-", lines + ["askrefund a k5 2024-03-01"], seconds=SECONDS)
        self.assert_done(done, 1)
        wanted = ["ok"] + [f"ok {count}" for count in range(1, MOST + 1)]
        self.assertTrue(done.lines[:MOST + 1] == wanted, "the number of a post")
        self.assertEqual(done.lines[MOST + 1:], ["no 25 AccountFull", "ok 5"])

    def test_days(self) -> None:
        """Ten posts a day over a thousand days, and one more."""
        lines = ["feerow 2011-01-02 3000 4100", f"roll {FIRST}", f"open a o 2024-01-06 5 {TERMS}"]
        wanted = ["ok", "ok", "ok 1"]
        count, day = 1, FIRST
        for number in range(DAYS):
            day = FIRST + datetime.timedelta(number)
            if number > 0:
                lines.append(f"roll {day}")
                wanted.append("ok")
            for _ in range(9 if number == 0 else 10):
                count += 1
                lines.append(f"askrefund a k{count} {day}")
                wanted.append(f"ok {count}")
        self.assertEqual(count, 10_000)
        done = apply("-", [*lines, f"askrefund a last {day}"], seconds=SECONDS)
        self.assert_done(done, 0, "".join(line + "\n" for line in [*wanted, "ok 10001"]))
