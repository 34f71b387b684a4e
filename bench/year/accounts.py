"""The accounts of a shard, and the posts that are drawn for them."""

import random
from dataclasses import dataclass
from typing import NamedTuple

from ..streams import RATES

BACK = 6  # a record is dated back by so many days at most
HABITS = 10
ALWAYS_WHOLE, MOSTLY_MINIMUM, PARTS = 5, 8, 9  # habits below these; the last one misses payments
VARIABLE_ONE_IN = 4
CASH_ONE_IN, BACK_ONE_IN, CREDIT_ONE_IN = 20, 10, 12
LATE_ONE_IN, RETURN_ONE_IN, DISPUTE_ONE_IN = 25, 60, 200
EARLY_NIGHTS, PAYING_NIGHTS = 5, 18


@dataclass(slots=True)
class Dispute:
    """An open dispute: its number, its cents, and whether it was acknowledged."""

    number: int
    cents: int
    is_acknowledged: bool = False


@dataclass(slots=True)
class Account:
    """What the next posts of an account rest on.

    `posts` counts those that were accepted; `payment` and `charge` are the numbers of the last ones
    of the month before, 0 for none; amounts are those of the last statement.
    """

    name: str
    habit: int
    is_variable: bool
    posts: int = 1
    owed: int = 0
    minimum: int = 0
    payment: int = 0
    charge: int = 0
    charged: int = 0
    dispute: Dispute | None = None


class Post(NamedTuple):
    """A post that waits for its night, which counts from 0 within the month."""

    night: int
    word: str
    key: str
    rest: str
    cents: int = 0


class Draw:
    """Draws posts, the same for the same seed."""

    def __init__(self, seed: str) -> None:
        self.random = random.Random(seed).random

    def below(self, limit: int) -> int:
        return int(self.random() * limit)

    def is_one_in(self, number: int) -> bool:
        return self.below(number) == 0

    def account(self, name: str) -> Account:
        return Account(name, self.below(HABITS), self.is_one_in(VARIABLE_ONE_IN))


class Month(NamedTuple):
    """A month in which posts are drawn. `days` has the day of each night's records; before them are
    those to which a record may be dated back."""

    number: int
    days: list[str]
    nights: int

    def day(self, night: int, back: int = 0) -> str:
        return self.days[max(0, len(self.days) - self.nights + night - back)]


def charges(draw: Draw, month: Month) -> list[Post]:
    """Two to four charges, some of them cash, some dated back."""
    found = []
    for at in range(2 + draw.below(3)):
        night = draw.below(month.nights)
        back = 1 + draw.below(BACK) if draw.is_one_in(BACK_ONE_IN) else 0
        place = "cash" if draw.is_one_in(CASH_ONE_IN) else "purchase"
        cents = 1000 + draw.below(20_000)
        found.append(Post(night, "charge", f"c{month.number}-{at}",
                          f"{month.day(night, back)} {place} {cents}", cents))
    return found


def paid(draw: Draw, account: Account) -> int:
    """The cents of this month's payment by the account's habit, 0 for none."""
    if account.owed <= 0:
        return 0
    if account.habit < ALWAYS_WHOLE:
        return account.owed
    if account.habit < MOSTLY_MINIMUM:
        return min(account.owed, account.minimum * (1 + draw.below(3)))
    if account.habit < PARTS:
        return 1 + account.owed * draw.below(80) // 100
    return account.minimum if draw.is_one_in(2) else 0


def payments(draw: Draw, account: Account, month: Month) -> list[Post]:
    cents = paid(draw, account)
    if cents == 0:
        return []
    is_late = draw.is_one_in(LATE_ONE_IN)
    night = month.nights - 2 if is_late else 1 + draw.below(PAYING_NIGHTS)
    channel = "online" if draw.below(3) else "mail"
    rest = f"{month.day(night)} {draw.below(1440)} {channel} {cents}"
    return [Post(night, "payment", f"p{month.number}", rest)]


def credits(draw: Draw, month: Month) -> list[Post]:
    if not draw.is_one_in(CREDIT_ONE_IN):
        return []
    night = draw.below(month.nights)
    rest = f"{month.day(night)} purchase {100 + draw.below(3000)}"
    return [Post(night, "credit", f"r{month.number}", rest)]


def returned(draw: Draw, account: Account, month: Month) -> list[Post]:
    """The payment of the month before comes back."""
    if account.payment == 0 or not draw.is_one_in(RETURN_ONE_IN):
        return []
    night = draw.below(EARLY_NIGHTS)
    return [Post(night, "return", f"u{month.number}", f"{month.day(night)} {account.payment}")]


def disputed(draw: Draw, account: Account, month: Month) -> list[Post]:
    """A dispute of the last charge of the month before, or what follows on one a month later: it is
    acknowledged, and then resolved."""
    night = draw.below(month.nights)
    day, found = month.day(night), account.dispute
    if found is None:
        if account.charge == 0 or not draw.is_one_in(DISPUTE_ONE_IN):
            return []
        rest = f"{day} {account.charge} {account.charged}"
        return [Post(night, "dispute", f"d{month.number}", rest, account.charged)]
    if not found.is_acknowledged:
        return [Post(night, "ack", f"k{month.number}", f"{day} {found.number}")]
    cents = (0, found.cents // 2, found.cents)[draw.below(3)]
    return [Post(night, "resolve", f"s{month.number}", f"{day} {found.number} {cents}")]


def note(account: Account, post: Post, number: int) -> None:
    """Keeps what later posts may name."""
    if post.word == "charge":
        account.charge, account.charged = number, post.cents
    elif post.word == "payment":
        account.payment = number
    elif post.word == "dispute":
        account.dispute = Dispute(number, post.cents)
    elif post.word == "ack" and account.dispute:
        account.dispute.is_acknowledged = True
    elif post.word == "resolve":
        account.dispute = None


def posts(draw: Draw, account: Account, month: Month) -> list[Post]:
    """The posts of an account in a month, in the order of their nights."""
    found = charges(draw, month) + payments(draw, account, month) + credits(draw, month)
    found += returned(draw, account, month) + disputed(draw, account, month)
    found.sort(key=lambda post: post.night)
    account.payment = 0
    for number, post in enumerate(found, account.posts + 1):
        note(account, post, number)
    account.posts += len(found)
    return found


def opening_line(account: Account, day: str, closing_day: int) -> str:
    if account.is_variable:
        return f"openvar {account.name} o {day} {closing_day} 1449 1949 1649 2999 2500 100"
    return f"open {account.name} o {day} {closing_day} {RATES}"
