"""Rows by worked bytes: what is written, both formats as they are read, and bytes that are none."""

from tests.support.case import Case
from tests.support.program import apply, run
from tests.support.rows import bodies_of, replace, rows_of

from .lines import CHARGE, LINES, OLD_CHARGE, OLD_OPEN, OLD_ROLL, OPEN, REPLIES, ROLL, SHOWN

SPELLINGS = {"format 1": (OLD_ROLL, OLD_OPEN, OLD_CHARGE), "format 2": (ROLL, OPEN, CHARGE),
             "both formats": (OLD_ROLL, OPEN, OLD_CHARGE)}

# The bytes of a last row, behind the lines that make it and those before it.
WRITTEN = (
    (["roll 2024-01-28"], "020112a7"),
    (["roll 2099-12-31"], "02017efa"),
    (["index 2024-04-01 550"], "021512e7020226"),
    (["index 2024-04-01 0"], "021512e700"),
    (
        ["index 2011-01-02 550", "roll 2024-01-28",
         "openvar h-1 o 2023-12-29 28 1449 1949 1649 2999 2500 100"],
        "021603682d31016f1289011c0205a902079d020671020bb70209c40164",
    ),
    (
        ["roll 2024-01-28", "open h-1 o 2023-12-29 28 1999 2499 2499 2999 2500 100",
         "charge h-1 c1 2023-12-29 purchase 1100"],
        "020503682d3102633112890002044c",
    ),
)

# Bytes that are no row in either format, though some would be one that is accepted if they were
# read less strictly.
FIRST_INDEX, OPENED = bytes.fromhex("021500010101"), bytes.fromhex("020112a7")
NO_ROWS = {
    "02": "a format alone",
    "0201": "a kind alone",
    "02010112a7": "a day of three bytes",
    "020112a700": "a byte behind it",
    "02017efb": "a day of 2100",
    "03010000": "a third format",
    "0117000000": "a kind that there isn't",
    "021512e703000226": "a number with a 0 in front",
    "021512e70226": "a number of two bytes, cut",
    "021512e70600000000000226": "a number of six bytes",
    "021512e70100": "0 as a byte",
    "011500004d660000000000000226": "an index row in format 1",
    "011603682d31016f00004d08000000000000001c00000000000005a9000000000000079d0000000000000671"
    "0000000000000bb700000000000009c40000000000000064": "an openvar in format 1",
}


def damaged(roll: bytes, opened: bytes, charge: bytes) -> list[tuple[list[tuple[int, bytes]], int]]:
    """Rows, and the number of the first that is damaged: out of turn, of another format, cut,
    empty, twice, before what they stand on, and from 2 on."""
    return [
        ([(1, roll), (2, opened), (4, charge)], 3),
        ([(2, roll), (3, opened), (4, charge)], 1),
        ([(1, roll), (2, opened), (3, b"\x09" + charge[1:])], 3),
        ([(1, b"\x09"), (2, opened), (3, charge)], 1),
        ([(1, roll), (2, opened), (3, charge[:-1])], 3),
        ([(1, roll), (2, opened), (3, charge + b"\x00")], 3),
        ([(1, b""), (2, opened), (3, charge)], 1),
        ([(1, roll), (2, opened), (3, charge), (4, b"")], 4),
        ([(1, roll), (2, opened), (3, opened)], 3),
        ([(1, roll), (2, opened), (3, charge), (4, charge)], 4),
        ([(1, roll), (2, charge), (3, opened)], 2),
    ]


class Rows(Case):
    def begin(self) -> None:
        self.assert_done(apply(self.file, LINES), 0, REPLIES)

    def test_three(self) -> None:
        self.begin()
        self.assertEqual(rows_of(self.file), [(1, ROLL), (2, OPEN), (3, CHARGE)])

    def test_spellings(self) -> None:
        """The rows of each format that is read: as they are, and damaged."""
        self.begin()
        for spelling, bodies in SPELLINGS.items():
            replace(self.file, enumerate(bodies, 1))
            self.assert_done(apply(self.file, ["show a"]), 0, SHOWN, spelling)
            for rows, number in damaged(*bodies):
                with self.subTest(spelling, rows=rows):
                    replace(self.file, rows)
                    self.assert_done(apply(self.file, ["show a"]), 8, f"damaged {number}\n")

    def test_no_rows(self) -> None:
        self.begin()
        for body, why in NO_ROWS.items():
            with self.subTest(why):
                replace(self.file, [(1, FIRST_INDEX), (2, OPENED), (3, bytes.fromhex(body))])
                self.assert_done(apply(self.file, ["show a"]), 8, "damaged 3\n", why)

    def test_old_file(self) -> None:
        """A file of format 1 goes on in format 2, and a process that loads both says what the one
        before said."""
        self.begin()
        old = [OLD_ROLL, OLD_OPEN, OLD_CHARGE]
        replace(self.file, enumerate(old, 1))
        shown = SHOWN.replace("1250", "1255")
        done = apply(self.file, ["index 2024-04-01 550", "charge a c2 2024-03-01 purchase 5",
                                 "index 2024-03-01 550", "show a"])
        self.assert_done(done, 1, "ok\nok 3\nno 29 PastRow 2024-03-01\n" + shown)
        new = ["021512e7020226", "0205016102633212c8000105"]
        self.assertEqual(bodies_of(self.file), old + [bytes.fromhex(body) for body in new])
        self.assert_done(apply(self.file, ["show a"]), 0, shown)

    def test_written(self) -> None:
        for lines, body in WRITTEN:
            with self.subTest(lines):
                file = self.at(body)
                self.assert_done(apply(file, lines), 0)
                self.assertEqual(bodies_of(file)[-1].hex(), body)
                self.assert_done(run([file, "work"]), 0, "")

    def test_later_index(self) -> None:
        """An index row comes after what was worked out, in this process and in the next."""
        done = apply(self.file, ["index 2024-01-01 550", "roll 2024-01-10",
                                 "openvar v o 2024-01-06 5 1449 1949 1649 2999 2500 100",
                                 "charge v c1 2024-01-10 cash 100000"])
        self.assert_done(done, 0, "ok\nok\nok 1\nok 2\n")
        before = "show v 2024-01-10 owed 100000 credit 0 held 0\n"
        after = "show v 2024-02-06 owed 101860 credit 0 held 0\n"
        lines = ["show v", "index 2024-01-21 575", "roll 2024-02-06", "show v"]
        self.assert_done(apply(self.file, lines), 0, before + "ok\nok\n" + after)
        self.assert_done(apply(self.file, ["show v"]), 0, after)
