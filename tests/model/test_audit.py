"""The second computation (audit/) over ledgers that the program wrote.

`audit` over a file of each example, of the demonstration's requests and of 60 generated inputs: the
program tells what is recomputed, and the file and what lies beside it stay as they were. Then it
has to find what isn't so: a row with one changed amount, by the statements that were sent before; a
program that tells one amount otherwise; damaged rows.
"""

import concurrent.futures
import dataclasses
import os
import shutil
import subprocess
import sys
import tempfile
from collections import Counter
from pathlib import Path

from audit.check import Different, check
from audit.demo import demo_requests
from audit.generate import generate
from audit.lines import line_text
from audit.program import Failed
from audit.rows import decode, encode
from tests.support.case import Case, long, read
from tests.support.program import EXAMPLES, PROGRAM, TOP, as_input, run
from tests.support.rows import base_of, rows_of

INPUTS = sorted(EXAMPLES.glob("*.txt"))
SEEDS = range(1, 61)
SENT = str(EXAMPLES / "returned-payment.statements")


def counts_of(lines: bytes) -> Counter[str] | str:
    """What the audit of a file of these lines counts, or how it ends; the files stay as they
    were."""
    with tempfile.TemporaryDirectory() as room:
        file = os.path.join(room, "ledger.db")
        run([file, "apply"], lines)
        before = {path.name: path.read_bytes() for path in Path(room).iterdir()}
        try:
            counts = check(file, PROGRAM, quiet=True)
        except (Different, Failed, SystemExit) as found:
            return str(found)
        if {path.name: path.read_bytes() for path in Path(room).iterdir()} != before:
            return "the file was changed, or another made beside it"
    parts = (part.rpartition(" ") for part in counts.split(", "))
    return Counter({key: int(count) for key, _, count in parts})


def generated(seed: int) -> Counter[str] | str:
    return counts_of(as_input(generate(seed, 150, 3)))


class Agree(Case):
    def expect(self, name: str, found: list[Counter[str] | str]) -> None:
        sums: Counter[str] = Counter()
        for number, counts in enumerate(found, 1):
            if isinstance(counts, str):
                self.fail(f"{name}, number {number}: {counts}")
            sums.update(counts)
        print(f"{name}: " + ", ".join(f"{key} {count}" for key, count in sums.items()))

    def test_examples(self) -> None:
        with concurrent.futures.ProcessPoolExecutor(os.cpu_count()) as pool:
            found = list(pool.map(counts_of, map(read, INPUTS)))
        self.expect(f"{len(INPUTS)} examples", found)

    def test_demonstration(self) -> None:
        lines = as_input(map(line_text, demo_requests(1, 20, 6)))
        self.expect("the demonstration", [counts_of(lines)])

    @long
    def test_generated(self) -> None:
        with concurrent.futures.ProcessPoolExecutor(os.cpu_count()) as pool:
            found = list(pool.map(generated, SEEDS))
        self.expect(f"{len(SEEDS)} generated inputs", found)


class Differ(Case):
    def setUp(self) -> None:
        super().setUp()
        run([self.file, "apply"], read(EXAMPLES / "returned-payment.txt"))

    def expect(self, file: str, status: int, *texts: str, program: str = PROGRAM,
               sent: str = "") -> None:
        """What the audit of a file says, on standard output or standard error."""
        words = [sys.executable, "-m", "audit", file, "--program", program]
        words += ["--sent", sent] if sent else []
        done = subprocess.run(words, cwd=TOP, stdout=subprocess.PIPE, stderr=subprocess.STDOUT,
                              text=True)
        self.assertEqual(done.returncode, status, done.stdout)
        for text in texts:
            self.assertIn(text, done.stdout)

    def changed(self) -> str:
        """Another file, in which the payment is ten dollars more."""
        other = self.at("changed.db")
        shutil.copyfile(self.file, other)
        with base_of(other) as base:
            for seq, body in rows_of(self.file):
                request = decode(body)
                if request and request.word == "payment":
                    more = dataclasses.replace(request, cents=(request.cents or 0) + 1000)
                    base.execute("UPDATE kept SET body = ? WHERE seq = ?", (encode(more), seq))
        return other

    def test_sound(self) -> None:
        self.expect(self.file, 0, "same: accounts 1, statements issued 2", "statements sent 2",
                    sent=SENT)

    def test_changed_amount(self) -> None:
        self.expect(self.changed(), 1, "account anna, statement 2 in",
                    "PAYMENT         4         -20.00\n  sent:", "-10.00", sent=SENT)

    def test_other_rows(self) -> None:
        """A program that tells of other rows than those of the file."""
        false = self.write("false", f"#!/bin/sh\nshift\nexec '{PROGRAM}' '{self.file}' \"$@\"\n")
        os.chmod(false, 0o755)
        self.expect(self.changed(), 1, "different: account anna, ", "\n  model:   ",
                    "\n  program: ", program=false)

    def test_damaged_row(self) -> None:
        other = self.changed()
        with base_of(other) as base:
            base.execute("UPDATE kept SET body = x'0102' WHERE seq = 5")
        self.expect(other, 2, "row 5 is damaged, as the program says with status 8")

    def test_nothing_there(self) -> None:
        self.expect(self.at("none"), 2, "No such file")
        self.expect(self.file, 2, "No such file", program=self.at("none"))
