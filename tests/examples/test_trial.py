"""Trial balances: the calls of examples/trial.tried, against what the independent model gave.

A line `ledger ..` begins a new file of rows, with what is shown by it; `WORDS | STATUS` is a call,
the lines behind `<` are its input, and those behind `>` what it writes.
"""

from typing import NamedTuple

from tests.support.case import Case, read
from tests.support.program import EXAMPLES, run


class Call(NamedTuple):
    """A call, with what it is given and what it has to write."""

    ledger: str
    words: list[str]
    status: int
    given: list[str]
    wanted: list[str]


def calls_of(text: str) -> list[Call]:
    calls: list[Call] = []
    ledgers, ledger = 0, ""
    for line in text.splitlines(True):
        if line.startswith("ledger "):
            ledgers += 1
            ledger = f"ledger {ledgers}, {line[7:-1]}"
        elif line[:2] in ("< ", "> "):
            (calls[-1].given if line[0] == "<" else calls[-1].wanted).append(line[2:])
        else:
            words, status = line.split(" | ")
            calls.append(Call(ledger, words.split(), int(status), [], []))
    return calls


class Trial(Case):
    def test_tried(self) -> None:
        calls = calls_of(read(EXAMPLES / "trial.tried").decode())
        self.assertTrue(calls)
        for call in calls:
            what = f"{call.ledger}: {' '.join(call.words)}"
            file = self.at(call.ledger.split(",")[0])
            done = run([file, *call.words], "".join(call.given))
            self.assert_done(done, call.status, "".join(call.wanted), what)
