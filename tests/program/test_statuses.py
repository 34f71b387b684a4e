"""The exit statuses where the program can't go on, and what it wrote until then."""

import os
import socket
import threading
import unittest

from tests.support.case import Case, read
from tests.support.program import EXAMPLES, TOP, Session, apply, as_input, run
from tests.support.requests import HEADER

from .lines import LINES, REPLIES, SHOWN

DAY = read(EXAMPLES / "first-day.txt")
PAGE = 4096
MEMORY = 64 * 1024 * 1024
ACCOUNTS = 60_000
CHARGED = "a,c1,charge,2024-03-01,purchase,1250,,"


class Ends(Case):
    def test_no_input(self) -> None:
        with open(os.devnull, "rb") as nothing:
            self.assert_done(run(["-", "apply"], nothing), 0, "")

    def test_input_fails(self) -> None:
        """A directory as the input."""
        folder = os.open(TOP, os.O_RDONLY)
        self.addCleanup(os.close, folder)
        self.assert_done(run(["-", "apply"], folder), 3)

    @unittest.skipUnless(os.access("/dev/full", os.W_OK), "/dev/full isn't there: no full output")
    def test_output_fails(self) -> None:
        for words, given in (("apply", DAY), ("demo 1 0 1", b""),
                             ("trial 2024-01-01 2024-01-01", b"")):
            with self.subTest(words), open("/dev/full", "wb") as full:
                self.assert_done(run(["-", *words.split()], given, out=full), 4, what=words)

    def test_no_memory(self) -> None:
        """60,000 accounts in 64 MB: all replies but the last, which may be cut, are whole."""
        lines = ["roll 2024-03-01"]
        lines += [f"open a{number} o 2024-03-01 5 1999 2499 2199 2999 2500 100"
                  for number in range(1, ACCOUNTS + 1)]
        done = apply("-", lines, memory_limit=MEMORY, seconds=600)
        self.assert_done(done, 6)
        self.assertEqual(set(done.lines[:-1]), {"ok", "ok 1"})

    def test_port_is_taken(self) -> None:
        with socket.create_server(("127.0.0.1", 0)) as taken:
            port = taken.getsockname()[1]
            self.assert_done(run(["-", "serve", str(port), "1"]), 7, "")


class Files(Case):
    def test_folder(self) -> None:
        self.assert_done(run([TOP, "apply"], DAY), 5, "")

    def test_full_disk(self) -> None:
        """A disk takes no more than a page of a file, too little for a row: it isn't kept, and is
        when the line comes again. The replies that waited with it aren't written."""
        self.assert_done(apply(self.file, LINES[:1]), 0, "ok\n")
        self.assert_done(apply(self.file, ["show a"] + LINES[1:], file_limit=PAGE), 5, "")
        with Session([self.file, "apply"], file_limit=PAGE) as session:
            self.assertEqual(session.ask("show a"), "no 1 UnknownAccount\n")
            session.write(as_input(LINES[1:2]))
            self.assertEqual(session.running.wait(60), 5, "though its input goes on")
            self.assertEqual(session.read_line(), "")
        done = apply(self.file, LINES[1:] + ["show a"])
        self.assert_done(done, 0, "ok 1\nok 2\n" + SHOWN, "with room")

    def begun(self) -> Session:
        """A run that has the file."""
        session = Session([self.file, "apply"])
        self.addCleanup(session.__exit__)
        self.assertEqual(session.ask("show a"), SHOWN)
        return session

    def test_in_use(self) -> None:
        """A second run waits for the file, and doesn't get it; the one that has it goes on."""
        self.assert_done(apply(self.file, LINES), 0, REPLIES)
        first = self.begun()
        self.assert_done(apply(self.file, ["charge a c2 2024-03-01 purchase 5"]), 5, "")
        self.assertEqual(first.ask("charge a c3 2024-03-01 purchase 5"), "ok 3\n")
        self.assertEqual(first.end(), 0)
        self.assert_done(apply(self.file, ["charge a c2 2024-03-01 purchase 5"]), 0, "ok 4\n")

    def test_in_use_for_a_time(self) -> None:
        """A second run gets the file where the first one ends in time."""
        apply(self.file, LINES)
        first = self.begun()
        threading.Timer(1, first.close).start()
        self.assert_done(apply(self.file, ["charge a c2 2024-03-01 purchase 5"]), 0, "ok 3\n")
        self.assertEqual(first.running.wait(60), 0)


class Records(Case):
    def test_records(self) -> None:
        """Records of seven fields, without a channel in the header, and of a kind that isn't
        read."""
        for records, status, replies in (
            ([HEADER, CHARGED], 0, "ok 2\n"),
            ([HEADER, CHARGED[:-1], CHARGED], 1, "bad 2 8\nok 2\n"),
            ([HEADER[:HEADER.rindex(",")], CHARGED], 1, "bad 1 8\nok 2\n"),
            ([HEADER, CHARGED, "a,c2,fee,2024-03-01,purchase,1250,,"], 1, "ok 2\nbad 3 3\n"),
        ):
            with self.subTest(records):
                file = self.at(str(len(os.listdir(self.room))))
                apply(file, LINES[:2])
                self.assert_done(run([file, "import"], as_input(records)), status, replies)
