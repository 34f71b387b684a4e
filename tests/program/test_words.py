"""Words that are no command give status 2 and the usage line; what isn't there gives `none`."""

import os

from tests.support.case import Case, read
from tests.support.program import EXAMPLES, run

DAY = EXAMPLES / "first-day.txt"
USAGE = ("usage: apply | import | statement ACCOUNT CYCLE | restate ACCOUNT CYCLE | "
         "export ACCOUNT | work | demo START ACCOUNTS CYCLES | serve PORT COUNT | "
         "repay ACCOUNT CYCLE | trial FROM TO\n")
NO_COMMANDS = """
-
- apply now
- Apply
- --help
- export
- export -a
- export a now
- serve
- serve 8080
- serve 0 1
- serve 65536 1
- serve 08080 1
- serve 8080 0
- serve 8080 1000001
- demo 1 20
- demo 1 20 6 7
- demo 1 1001 6
- demo 1 20 61
- demo 1 20 0
- demo 01 20 6
- demo -1 20 6
- demo 1000000000000 1 1
- statement
- statement a
- statement a 0
- statement a 01
- statement a 1201
- restate -a 1
- restate a -1
- restate a 1 now
- repay
- repay a
- repay a 0
- repay a 01
- repay a 1201
- repay -a 1
- repay a 1 now
- trial
- trial 2024-01-01
- trial 2024-01-02 2024-01-01
- trial 2024-02-30 2024-03-01
- trial 2010-12-31 2024-01-01
- trial 2024-01-01 2100-01-01
- trial 2024-1-1 2024-01-02
- trial 2024-01-01 2024-01-02 now
""".split("\n")[:-1]
# a word with a byte that isn't UTF-8, as Python hands it on
NO_TEXT = "rows-\udcff.db"
NOT_THERE = ("export nobody", "statement nobody 1", "restate nobody 1", "repay nobody 1")


class Words(Case):
    def test_no_commands(self) -> None:
        for words in NO_COMMANDS:
            with self.subTest(words):
                self.assert_done(run(words.split(), read(DAY)), 2, USAGE, words)

    def test_no_text(self) -> None:
        """A word that isn't UTF-8 makes no command, also as a name of a file, which isn't made."""
        for words in ([NO_TEXT, "apply"], [NO_TEXT, "work"], ["-", "export", NO_TEXT]):
            with self.subTest(words):
                place = [self.at(NO_TEXT)] if words[0] == NO_TEXT else ["-"]
                self.assert_done(run(place + words[1:], read(DAY)), 2, USAGE, str(words))
        self.assertEqual(os.listdir(self.room), [])

    def test_not_there(self) -> None:
        self.assert_done(run([self.file, "apply"], read(DAY)), 0)
        for words in NOT_THERE:
            with self.subTest(words):
                self.assert_done(run([self.file, *words.split()]), 1, "none\n", words)
