"""One sync that fails: no row that was answered is lost, and nothing is answered that isn't kept.

After it a server answers 503 to every later post, without another try, until it is started again:
what the disk has of its file isn't known. The post that met it may be kept or not, so the same
post, sent again, gets a number either way. What is asked is answered.
"""

from ..support.case import Case, tools_missing
from ..support.program import apply, as_input, run
from ..support.rows import Row, copy, integrity, rows_of
from ..support.server import Server
from .expected import WAITING, sound_rows
from .syncs import Syncs

OPENING = ["roll 2024-03-01", "open a o 2024-03-01 5 1999 2499 2199 2999 2500 100"]
CHARGES = [f"charge a c{at} 2024-03-01 purchase {100 + at}" for at in range(6)]
LINES = OPENING + [f"charge a k{at} 2024-03-01 purchase {100 + at}" for at in range(300)]
FAULT = (503, '{"fault":"keeper"}')


def number_of(at: int) -> int:
    """The number of a charge: the opening is the first post."""
    return at + 2


class FailingSync(Case):
    def setUp(self) -> None:
        super().setUp()
        if tools_missing("cc"):
            self.skipTest("cc isn't installed: one sync that fails")
        self.syncs = Syncs(self)
        self.opened = self.at("opened")
        self.assert_done(apply(self.opened, OPENING), 0)

    def serve(self, failing: int) -> tuple[list[int], list[int]]:
        """The statuses of the charges where this sync fails, and the syncs before each and at the
        end."""
        statuses, counts = [], []
        with Server(self.file, env=self.syncs.environment(failing)) as server:
            owed = server.ask("GET", "/accounts/a")
            for at, line in enumerate(CHARGES):
                counts.append(self.syncs.count())
                answer = server.post(line)
                kept = 200, '{"ok":%d}' % number_of(at)
                self.assertEqual((answer.status, answer.text),
                                 kept if answer.status == 200 else FAULT)
                statuses.append(answer.status)
            counts.append(self.syncs.count())
            owed = server.ask("GET", "/accounts/a")
            cents = sum(100 + at for at in range(statuses.count(200)))
            shown = f"show a 2024-03-01 owed {cents} credit 0 held 0\n"
            self.assertEqual((owed.status, owed.text), (200, shown))
            lines = server.lines[: 1 + len(statuses)]
            self.assertEqual(lines, ["200", *map(str, statuses)])
        return statuses, counts

    def test_a_server_takes_no_post_after_it(self) -> None:
        copy(self.opened, self.file)
        statuses, counts = self.serve(0)
        self.assertEqual(statuses, [200] * len(CHARGES))
        for failing in range(counts[0] + 1, counts[-1] + 1):
            with self.subTest(sync=failing, of=counts[-1]):
                copy(self.opened, self.file)
                met = next(at for at, count in enumerate(counts[1:]) if count >= failing)
                self.after(failing, met)

    def after(self, failing: int, met: int) -> None:
        """The charge of this place meets the failing sync."""
        statuses, counts = self.serve(failing)
        self.assertEqual(statuses, [200] * met + [503] * (len(CHARGES) - met))
        self.assertEqual(counts[met + 1:], [failing] * (len(CHARGES) - met), "it tries again")
        self.assertEqual(integrity(self.file), "ok")
        rows = len(rows_of(self.file)) - len(OPENING)
        self.assertIn(rows, (met, met + 1), f"{met} answers of 200, {rows} rows")
        with Server(self.file) as server:
            for at in (met, *range(len(CHARGES))):
                answer = server.post(CHARGES[at])
                self.assertEqual((answer.status, answer.text),
                                 (200, '{"ok":%d}' % number_of(at)))
        self.assertEqual(len(rows_of(self.file)), len(OPENING) + len(CHARGES))

    def test_a_run_of_lines_ends_with_5(self) -> None:
        whole = apply(self.file, LINES, env=self.syncs.environment(0))
        rows, count = rows_of(self.file), self.syncs.count()
        self.assert_done(whole, 0)
        for failing in range(1, count + 1):
            with self.subTest(sync=failing, of=count):
                self.file = self.at(f"rows{failing}")
                self.meets(failing, whole.lines, rows)

    def meets(self, failing: int, replies: list[str], rows: list[Row]) -> None:
        """A run that meets it: its replies have their rows, and the lines sent again get their old
        numbers. Where the last syncs fail, after the last commit, all is kept."""
        done = run([self.file, "apply"], as_input(LINES), env=self.syncs.environment(failing))
        kept = sound_rows(self.file, len(done.lines))
        self.assertIn(done.status, (0, 5))
        self.assertEqual(done.lines, replies[: len(done.lines)])
        self.assertEqual(kept, rows[: len(kept)])
        self.assertTrue(len(done.lines) <= len(kept) <= len(done.lines) + WAITING)
        if done.status == 0:
            self.assertEqual((done.lines, kept), (replies, rows))
        # `roll` has no key, so it isn't sent again where it is kept
        again = apply(self.file, LINES[1:] if kept else LINES)
        self.assertEqual(again.lines, replies[1:] if kept else replies)
