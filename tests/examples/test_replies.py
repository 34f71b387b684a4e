"""The replies to each example are those of the independent model (examples/NAME.out)."""

import unittest

from tests.support.case import Case, read
from tests.support.program import EXAMPLES, run, start

INPUTS = sorted(EXAMPLES.glob("*.txt"))


class Replies(Case):
    def test_all_at_once(self) -> None:
        """Status 1 comes exactly where a reply is `no` or `bad`."""
        self.assertTrue(INPUTS)
        for path in INPUTS:
            with self.subTest(path.stem):
                wanted = read(path.with_suffix(".out"))
                refused = any(line.startswith((b"no ", b"bad ")) for line in wanted.splitlines())
                self.assert_done(run(["-", "apply"], read(path)), int(refused), wanted, path.stem)

    def test_line_by_line(self) -> None:
        """Someone sends a line only when the reply to the one before it was read."""
        lines = read(EXAMPLES / "two-cycles.txt").splitlines(True)
        replies = read(EXAMPLES / "two-cycles.out").splitlines(True)
        with start(["-", "apply"]) as running:
            assert running.stdin and running.stdout
            for line, wanted in zip(lines, replies, strict=True):
                running.stdin.write(line)
                self.assertEqual(running.stdout.readline(), wanted, line)
            running.stdin.close()
            self.assertEqual(running.wait(60), 0)


if __name__ == "__main__":
    unittest.main()
