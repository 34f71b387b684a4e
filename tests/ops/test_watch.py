"""ops/watch: a server that answers 503 is started again once its disk takes writes."""

import os
import subprocess

from tests.support.program import TOP

from .common import Case

WATCH = os.path.join(TOP, "ops", "watch")
BEGUN = "Mon 2024-01-15 08:00:00 UTC"
AGAIN = "systemctl restart billctl.service"

# What the units ask: since when the server runs, what it wrote since, and that it be started again.
SYSTEMCTL = """#!/bin/sh
echo "systemctl $*" >>"$ROOM/asked"
[ "$1" = show ] && cat "$ROOM/begun"
exit 0
"""
JOURNALCTL = """#!/bin/sh
echo "journalctl $*" >>"$ROOM/asked"
cat "$ROOM/journal"
"""


class Watch(Case):
    def setUp(self) -> None:
        super().setUp()
        os.mkdir(self.at("bin"))
        for name, text in (("systemctl", SYSTEMCTL), ("journalctl", JOURNALCTL)):
            os.chmod(self.write(os.path.join("bin", name), text), 0o755)
        os.mkdir(self.at("ledger"))
        self.write("begun", BEGUN + "\n")

    def watch(self, journal: str) -> tuple[int, str, list[str]]:
        """The status, what is told, and what was asked of systemd; the try leaves no file."""
        self.write("journal", journal)
        self.write("asked", "")
        path = f"{self.at('bin')}:{os.environ['PATH']}"
        done = subprocess.run([WATCH, "billctl.service", self.at("ledger")], capture_output=True,
                              text=True, env=dict(os.environ, PATH=path, ROOM=self.room))
        self.assertEqual(os.listdir(self.at("ledger")), [])
        with open(self.at("asked"), encoding="ascii") as file:
            return done.returncode, done.stderr, file.read().splitlines()

    def test_no_503(self) -> None:
        """Whatever else stands in the output, the server stays."""
        for journal in ("", "200\n200\ncut\n507\nmemory\n404\n", "Started with 503\n1503\n"):
            with self.subTest(journal):
                status, told, asked = self.watch(journal)
                self.assertEqual((status, told), (0, ""))
                self.assertNotIn(AGAIN, asked)

    def test_503(self) -> None:
        status, told, asked = self.watch("200\n503\n200\n503\n")
        self.assertEqual(status, 1)
        self.assertEqual(told, f"watch: 2 answers were 503 though {self.at('ledger')} takes "
                               "writes: billctl.service is started again; send these posts again "
                               "with their keys\n")
        self.assertEqual(asked[1:], ["journalctl --quiet --output=cat "
                                     f"--since={BEGUN} --unit=billctl.service", AGAIN])

    def test_full(self) -> None:
        """While the disk is full a start would change nothing."""
        os.symlink("/dev/full", self.at("ledger", ".watch"))
        status, told, asked = self.watch("503\n")
        self.assertEqual(status, 0)
        self.assertNotIn(AGAIN, asked)
        self.assertIn(f"watch: 1 answers were 503, and {self.at('ledger')} takes no writes",
                      told)

    def test_not_running(self) -> None:
        self.write("begun", "\n")
        status, told, asked = self.watch("503\n")
        self.assertEqual((status, told), (0, ""))
        self.assertEqual(len(asked), 1, "it is asked since when the server runs, and no more")

    def test_words(self) -> None:
        self.assertEqual(subprocess.run([WATCH], capture_output=True).returncode, 2)
