"""The posts of each account, as the kept rows have them, and as later posts correct them."""

from collections.abc import Iterable
from dataclasses import dataclass, field
from datetime import date

from companion.days import FIRST_DAY, day_of
from companion.opening import Row, open_rows
from companion.requests import OPENINGS, SHARED, Request
from companion.rows import account_and_key
from companion.state import requests_of

DATED = ("charge", "credit", "payment")
HEAD = 2


@dataclass(frozen=True)
class Post:
    """A post of an account: its number, its request, and the day on which it was accepted."""

    number: int
    request: Request
    accepted: date

    @property
    def word(self) -> str:
        return self.request.word

    @property
    def key(self) -> str:
        return self.request.fields["key"]

    @property
    def day(self) -> date:
        """Its own day; of a post that has none, that of its acceptance."""
        return day_of(self.request.fields.get("day", "")) or self.accepted

    def number_in(self, member: str) -> int:
        return int(self.request.fields[member])

    @property
    def target(self) -> int:
        return self.number_in("target")

    @property
    def cents(self) -> int:
        return self.number_in("cents")


@dataclass
class Account:
    """The posts of an account, in order; the first one opened it."""

    name: str
    posts: list[Post] = field(default_factory=list)

    @property
    def opening(self) -> Post:
        return self.posts[0]

    @property
    def close(self) -> int:
        return self.opening.number_in("close")

    def post(self, number: int) -> Post | None:
        return self.posts[number - 1] if 1 <= number <= len(self.posts) else None

    def of(self, *words: str) -> list[Post]:
        return [post for post in self.posts if post.word in words]

    def naming(self, word: str, number: int) -> list[Post]:
        """The posts of a word that name a post."""
        return [post for post in self.posts if post.word == word and post.target == number]

    def stands(self, post: Post) -> tuple[date, int]:
        """The day and the cents of a charge, credit or payment as later posts correct them.

        An amend gives both. What was found to be an error in a charge is taken off.
        """
        day, cents = post.day, post.cents
        for amend in self.naming("amend", post.number):
            day, cents = amend.day, amend.cents
        for dispute in self.naming("dispute", post.number):
            cents -= sum(found.cents for found in self.naming("resolve", dispute.number))
        return day, max(cents, 0)


@dataclass
class History:
    """All accounts with their posts, the holidays, and today."""

    today: date = FIRST_DAY
    accounts: dict[str, Account] = field(default_factory=dict)
    holidays: set[date] = field(default_factory=set)

    def take(self, request: Request) -> None:
        if request.word in SHARED:
            day = day_of(request.fields["day"])
            assert day is not None
            if request.word == "roll":
                self.today = day
            elif request.word == "holiday":
                self.holidays.add(day)
            return
        name = request.fields["account"]
        if request.word in OPENINGS:
            self.accounts[name] = Account(name)
        posts = self.accounts[name].posts
        posts.append(Post(len(posts) + 1, request, self.today))


def read_history(path: str, wait: int = 0) -> History:
    """What the rows of a file give."""
    found = History()
    with open_rows(path, wait) as rows:
        for request in requests_of(rows):
            found.take(request)
    return found


def numbers_in(rows: Iterable[Row], wanted: set[tuple[str, str]]) -> dict[tuple[str, str], int]:
    """The number of each post that has one of the wanted accounts and keys."""
    found: dict[tuple[str, str], int] = {}
    counts: dict[str, int] = {}
    names = {name for name, _ in wanted}
    for _, body in rows:
        if len(body) <= HEAD or body[1] in (1, 2, 3, 21):
            continue
        name, key = account_and_key(body)
        if name not in names:
            continue
        counts[name] = counts.get(name, 0) + 1
        if (name, key) in wanted:
            found.setdefault((name, key), counts[name])
    return found
