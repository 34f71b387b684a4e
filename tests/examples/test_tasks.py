"""The open tasks of each example are those of the independent model (examples/NAME.tasks)."""

from tests.support.case import Case, read
from tests.support.program import EXAMPLES, run


class Tasks(Case):
    def expect(self, name: str, lines: bytes, wanted: bytes) -> None:
        run([self.at(name), "apply"], lines)
        self.assert_done(run([self.at(name), "work"]), 0, wanted, name)

    def test_work(self) -> None:
        wanted = sorted(EXAMPLES.glob("*.tasks"))
        self.assertTrue(wanted)
        for path in wanted:
            with self.subTest(path.stem):
                self.expect(path.stem, read(path.with_suffix(".txt")), read(path))

    def test_a_day_earlier(self) -> None:
        """On the day before a rate rises nobody has to review it yet."""
        lines = read(EXAMPLES / "every-task.txt")
        earlier = lines.replace(b"\nroll 2025-04-15\n", b"\nroll 2025-04-14\n")
        self.assertNotEqual(earlier, lines)
        tasks = read(EXAMPLES / "every-task.tasks").splitlines(True)
        left = b"".join(line for line in tasks if b"REVIEW" not in line)
        self.expect("earlier", earlier, left)
