"""Statements of whole examples over rows in a file, against those of the independent model.

examples/NAME.statements are the statements of the cycles that were billed, one behind the other;
NAME.restated are the cycles as recomputed after a correction of an old cycle, which leaves what was
issued as it was.
"""

from collections.abc import Iterable

from tests.support.case import Case, read
from tests.support.program import EXAMPLES, apply, run

from .ledgers import account_of


def billed(text: bytes) -> list[str]:
    """The cycles that were billed."""
    lines = [line.split() for line in text.decode().splitlines()]
    return [words[3] for words in lines if words[:1] == ["bill"]]


class Statements(Case):
    def texts(self, file: str, word: str, account: str, cycles: Iterable[str]) -> bytes:
        """The statements of these cycles: as issued, or as recomputed."""
        found = b""
        for cycle in cycles:
            done = run([file, word, account, cycle])
            self.assert_done(done, 0, what=f"{word} {account} {cycle}")
            found += done.out
        return found

    def begin(self, name: str) -> tuple[str, bytes]:
        text = read(EXAMPLES / f"{name}.txt")
        run([self.at(name), "apply"], text)
        return self.at(name), text

    def test_issued(self) -> None:
        """As issued and as recomputed."""
        wanted = sorted(EXAMPLES.glob("*.statements"))
        self.assertTrue(wanted)
        for path in wanted:
            file, text = self.begin(path.stem)
            for word in ("statement", "restate"):
                with self.subTest(path.stem, word=word):
                    found = self.texts(file, word, account_of(text), billed(text))
                    self.assert_same(found, read(path), word)

    def after(self, file: str, name: str, line: str, reply: str, restated: str) -> None:
        """A line is accepted; what was issued stays, and the cycles as recomputed are as wanted."""
        cycles = [str(cycle) for cycle in range(1, 25 if name == "two-years" else 3)]
        self.assert_done(apply(file, [line]), 0, reply + "\n", line)
        issued = read(EXAMPLES / f"{name}.statements")
        self.assert_same(self.texts(file, "statement", "anna", cycles), issued, "issued")
        found = self.texts(file, "restate", "anna", cycles)
        self.assert_same(found, read(EXAMPLES / restated), "recomputed")

    def test_dated_back(self) -> None:
        """A charge is dated back to a cycle that was billed."""
        file, _ = self.begin("returned-payment")
        self.after(file, "returned-payment", "charge anna d 2024-02-10 purchase 5000", "ok 7",
                   "returned-payment.restated")

    def test_corrected(self) -> None:
        """An old charge is corrected, and the correction is taken back."""
        file, _ = self.begin("two-years")
        self.after(file, "two-years", "amend anna m1 4 2024-02-10 2000", "ok 51",
                   "two-years.restated")
        self.after(file, "two-years", "amend anna m2 4 2024-02-10 1000", "ok 52",
                   "two-years.statements")
