"""What was printed of a history, as the checks read it.

A folder has the request lines (`lines`), the reply to each (`replies`), the entries of every
account (`NAME.csv`, as `export` prints them) and its closed cycles (`NAME.txt`, as `restate` prints
them, one behind the other).
"""

import csv
import itertools
import re
from collections.abc import Iterator
from dataclasses import dataclass, field
from pathlib import Path
from typing import NamedTuple

from .days import DAY, Date, day_of, months_on

TIMELY = 21 * DAY  # from the issue of a statement to its due date
NOTICE = 45 * DAY  # from a notice, or the acceptance of a penalty, to its first day
FIRST_ADDED = 5  # the number of the first segment that a plan or a notice adds
SHARED = ("roll", "holiday", "index", "feerow")


class Broken(Exception):
    """A law that doesn't hold, with what was found."""


class Entry(NamedTuple):
    day: Date
    segment: str
    kind: str
    post: int
    cents: int


class Rate(NamedTuple):
    """A line of a statement: the rate of a balance, in basis points, and its interest."""

    basis_points: int
    interest: int


class Cycle(NamedTuple):
    minimum: int
    rates: dict[str, Rate]  # by segment


class FeeRow(NamedTuple):
    day: Date
    first: int
    repeat: int


class Post(NamedTuple):
    number: int
    word: str
    fields: list[str]
    accepted: Date


@dataclass
class Account:
    """An account, as its requests say it."""

    name: str
    opening: Post
    posts: dict[int, Post] = field(default_factory=dict)
    entries: list[Entry] = field(default_factory=list)
    cycles: dict[int, Cycle] = field(default_factory=dict)

    @property
    def opened(self) -> Date:
        return day_of(self.opening.fields[0])

    @property
    def close(self) -> int:
        return int(self.opening.fields[1])

    @property
    def follows_index(self) -> bool:
        return self.opening.word == "openvar"

    def closing(self, number: int) -> Date:
        """The closing of a cycle; cycle 0 is the one before the opening."""
        return months_on(self.opened, number - 1 + (self.opened.day > self.close), self.close)

    def due(self, number: int) -> Date:
        """The due date of a cycle: the same day of each month, 24 to 27 days after the closing."""
        closing = self.closing(number)
        return closing + 24 * DAY if self.close <= 4 else months_on(closing, 1, self.close - 4)

    def cycle_of(self, day: Date) -> int:
        return next(number for number in itertools.count(1) if day <= self.closing(number))

    def dues_before(self, day: Date) -> list[tuple[int, Date]]:
        """The due dates before a day, with the numbers of their cycles."""
        found = ((number, self.due(number)) for number in itertools.count(1))
        return list(itertools.takewhile(lambda pair: pair[1] < day, found))

    def of(self, *words: str) -> list[Post]:
        return [post for post in self.posts.values() if post.word in words]

    def issued(self, number: int) -> Date | None:
        """The day on which the statement of a cycle was issued, if it was."""
        return next((post.accepted for post in self.of("bill") if int(post.fields[0]) == number),
                    None)

    def is_due(self, number: int) -> bool:
        """Whether the statement of a cycle was issued at least 21 days before its due date."""
        issued = self.issued(number)
        return issued is not None and issued + TIMELY <= self.due(number)

    def added(self) -> dict[int, Post]:
        """The plan or notice of each segment that was added, by the segment's number."""
        return dict(enumerate(self.of("plan", "notice"), start=FIRST_ADDED))

    def amended(self) -> dict[int, tuple[str, str]]:
        """The day and the cents of the last amendment of each post that has one."""
        return {int(post.fields[0]): (post.fields[1], post.fields[2]) for post in self.of("amend")}


@dataclass
class Papers:
    accounts: dict[str, Account] = field(default_factory=dict)
    holidays: set[Date] = field(default_factory=set)
    fee_rows: list[FeeRow] = field(default_factory=list)
    index_rows: list[tuple[Date, int]] = field(default_factory=list)
    today: Date = day_of("2011-01-01")

    def index_on(self, day: Date) -> int:
        """The index of the latest row up to a day, of two for one day the later; 0 without any."""
        rows = [(row_day, place, value) for place, (row_day, value) in enumerate(self.index_rows)
                if row_day <= day]
        return max(rows, default=(day, 0, 0))[2]


def read_shared(papers: Papers, word: str, fields: list[str]) -> None:
    day = day_of(fields[0])
    if word == "roll":
        papers.today = day
    elif word == "holiday":
        papers.holidays.add(day)
    elif word == "index":
        papers.index_rows.append((day, int(fields[1])))
    else:
        papers.fee_rows.append(FeeRow(day, int(fields[1]), int(fields[2])))


def read_post(papers: Papers, number: int, word: str, name: str, fields: list[str]) -> None:
    """A post under a new number; one that was sent again has its old number."""
    post = Post(number, word, fields, papers.today)
    if name not in papers.accounts:
        papers.accounts[name] = Account(name, post)
    papers.accounts[name].posts.setdefault(number, post)


def read_requests(folder: Path) -> Papers:
    """All that was accepted, in order."""
    papers = Papers()
    lines = (folder / "lines").read_bytes().split(b"\n")
    replies = (folder / "replies").read_text(encoding="ascii").splitlines()
    for line, reply in zip(lines, replies):
        word, *fields = line.decode("latin-1").rstrip("\r").split(" ")
        if reply == "ok" and word in SHARED:
            read_shared(papers, word, fields)
        elif reply.startswith("ok "):
            read_post(papers, int(reply[3:]), word, fields[0], fields[2:])
    return papers


def read_entries(path: Path) -> Iterator[Entry]:
    with open(path, newline="", encoding="ascii") as file:
        _, *records = csv.reader(file)
    for day, segment, kind, post, cents in records:
        yield Entry(day_of(day), segment, kind, int(post), int(cents))


def hundredths(text: str) -> int:
    return int(text.replace(".", ""))


def read_cycles(path: Path) -> Iterator[tuple[int, Cycle]]:
    """The number of each closed cycle, with its minimum payment and its lines of rates."""
    for text in path.read_text(encoding="ascii").split("STATEMENT ")[1:]:
        number = re.match(r"\S+ CYCLE (\d+)\n", text)
        minimum = re.search(r"^MINIMUM PAYMENT +(\S+)$", text, re.MULTILINE)
        if number is None or minimum is None:
            raise ValueError(f"{path}: a statement without its cycle or its minimum payment")
        rates = re.findall(r"^RATE (\S+) +(\S+)% +\S+ +\S+ +(\S+)$", text, re.MULTILINE)
        yield int(number[1]), Cycle(hundredths(minimum[1]), {
            segment: Rate(hundredths(rate), hundredths(interest))
            for segment, rate, interest in rates})


def read_papers(folder: Path) -> Papers:
    papers = read_requests(folder)
    for name, account in papers.accounts.items():
        account.entries = list(read_entries(folder / f"{name}.csv"))
        account.cycles = dict(read_cycles(folder / f"{name}.txt"))
    return papers
