"""Four ledgers behind HAProxy as examples/shards has them, on free ports of loopback.

Eight clients post a month of 200 accounts through the door at once, and ask between their posts,
while shared.sh rolls from day to day. One ledger is killed amid it and started again; a second one
is moved: shut, killed, its file copied, a day rolled without it, and started over the copy.
Afterwards every answer, in the order in which the door gave them, is that of one ledger that gets
the same requests in that order, and so are every account's line, entries, statements and rows, and
the open tasks. No account has a row in two shards. Bodies and paths in which the door and a ledger
might read two accounts are sent: none reaches a wrong shard, and none that is refused reaches any.
`python3 -m tests.shards SEED` runs the month with the seed that is printed.
"""
import random

from tests.support.case import Case, tools_missing
from tests.support.program import EXAMPLES

from . import month, tables

ALONE = True


class Tables(Case):
    """split.py and gather.py, which need no door."""

    def test_worked(self) -> None:
        tables.worked(self.room, month.EXAMPLES)

    def test_month(self) -> None:
        """Records that are split to four ledgers come to one ledger's entries."""
        tables.month(self.room, month.EXAMPLES, str(EXAMPLES / "month"))


class Shards(Case):
    long = True

    def test_month(self) -> None:
        if missing := tools_missing("haproxy", "socat", "curl", "flock"):
            self.skipTest(f"{', '.join(missing)} isn't installed: no ledger is run behind a door")
        print(month.run(self.room, random.randrange(10**6)))
