"""Files that are new, missing, empty, cut or refused: who may use them, and that they stay."""

import os
from typing import NamedTuple

from tests.support.case import Case, read
from tests.support.program import Done, apply, run
from tests.support.rows import ENDS, base_of, copy

from .lines import CHARGE, LINES, REPLIES, TELLING

# A second charge of another key, which stands in the log alone.
SECOND = CHARGE.hex().replace("6331", "6332")


class Kept(NamedTuple):
    """A file or its log: what it holds, and who may use it."""

    end: str
    mode: int
    data: bytes


def held(file: str) -> list[Kept]:
    return [Kept(end, os.stat(file + end).st_mode & 0o777, read(file + end))
            for end in ENDS if os.path.exists(file + end)]


def command(file: str, words: str) -> Done:
    return run([file, *words.split()])


class Damaged(Case):
    def expect_stays(self, file: str, before: list[Kept], what: str) -> None:
        """The file is as it was, and its log too, up to its last commit."""
        now = held(file)
        self.assertEqual([kept[:2] for kept in now], [kept[:2] for kept in before], what)
        for kept, was in zip(now, before, strict=True):
            is_same = kept.data.startswith(was.data) if kept.end else kept == was
            self.assertTrue(is_same, f"{what}: {kept.end or 'the file'} changed")

    def apart(self, name: str, *statements: str) -> str:
        """A file whose rows, and what the statements make of them, stand in its log alone."""
        file, other = self.at(name), self.at(name + "-apart")
        self.assert_done(apply(file, LINES), 0, REPLIES)
        with base_of(file) as base:
            for statement in ("PRAGMA journal_mode=wal", *statements):
                base.execute(statement)
            base.commit()
            copy(file, other)
        return other

    def test_new(self) -> None:
        """A new file and its log are their owner's, whatever the mask."""
        self.assert_done(apply(self.file, LINES, mask=0), 0, REPLIES)
        self.assertEqual([kept[:2] for kept in held(self.file)], [("", 0o600), ("-wal", 0o600)])

    def test_missing(self) -> None:
        """A file is made by what carries out requests alone."""
        for words in TELLING:
            self.assert_done(command(self.file, words), 5, "", words)
            self.assertEqual(held(self.file), [], words)

    def test_no_byte(self) -> None:
        self.write("rows.db", b"")
        for words in TELLING:
            self.assert_done(command(self.file, words), 5, "", words)
            left = [(kept.end, kept.data) for kept in held(self.file)]
            self.assertEqual(left, [("", b"")], words)
        self.assert_done(apply(self.file, LINES), 0, REPLIES)

    def test_cut(self) -> None:
        """A file that has lost its bytes, beside a log that was joined to it and one that wasn't,
        is refused and stays."""
        joined = self.at("cut")
        apply(joined, LINES)
        for file in (joined, self.apart("cut-too")):
            os.truncate(file, 0)
            before = held(file)
            for words in ("apply", "import", *TELLING):
                with self.subTest(os.path.basename(file), words=words):
                    self.assert_done(command(file, words), 5, "")
                    self.expect_stays(file, before, words)

    def test_refused(self) -> None:
        """A file that is refused stays as it was, with a log whose rows aren't joined to it."""
        for name, statement, status, out in (
            ("damaged", "DELETE FROM kept WHERE seq = 2", 8, "damaged 2\n"),
            ("another-table", "CREATE TABLE other (a)", 5, ""),
        ):
            file = self.apart(name, statement)
            before = held(file)
            for words in ("apply", *TELLING):
                with self.subTest(name, words=words):
                    self.assert_done(command(file, words), status, out)
                    self.expect_stays(file, before, words)

    def test_read(self) -> None:
        """So does one that is only read, and a run that only reads wants no room on the disk."""
        file = self.apart("sound", f"INSERT INTO kept VALUES (4, x'{SECOND}')")
        before = held(file)
        for words in ("apply", *TELLING):
            with self.subTest(words):
                self.assertLess(command(file, words).status, 2)
                self.expect_stays(file, before, words)
        self.assert_done(run([file, "work"], file_limit=0), 0, "")
        apply(self.file, LINES)
        room = os.path.getsize(self.file + "-wal")
        self.assert_done(run([self.file, "work"], file_limit=room), 0, "")
