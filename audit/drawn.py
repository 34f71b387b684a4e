"""What a writer of request lines draws: names, days, amounts and numbers that mostly fit the
state."""

import random

from .lines import read_line
from .machine import Account, Machine
from .product import WORDS_TO_COME
from .words import Request


class Drawn:
    """Keeps a machine beside the lines that are written, and draws what the next one may say.

    It knows today, the accounts, the post numbers and the balances.
    """

    def __init__(self, seed: int, accounts: int, unknown: frozenset[str] = WORDS_TO_COME):
        self.draw = random.Random(seed)
        self.unknown = unknown  # words that the program doesn't know: such a line is bad
        self.machine = Machine()
        self.names = [chr(ord("a") + i % 26) + ("" if i < 26 else str(i)) for i in range(accounts)]
        self.lines: list[str] = []
        self.sent: list[Request] = []
        self.wanted: list[str] = []  # lines that should come soon
        self.undo: list[tuple[str, int, int, int]] = []
        self.mood: dict[str, str] = {}
        self.keys = 0
        self.most = accounts + 2
        self.many = seed % 13 == 12  # such a run fills accounts with segments

    @property
    def today(self) -> int:
        return self.machine.today

    def chance(self, percent: int) -> bool:
        return self.draw.randrange(100) < percent

    def key(self) -> str:
        self.keys += 1
        return f"k{self.keys}"

    def emit(self, line: str) -> None:
        item = read_line(line.encode(), self.unknown)
        if isinstance(item, Request):
            self.sent.append(item)
            reply = self.machine.apply(item)
            if item.word == "roll" and reply.new:
                self.after_roll()
        self.lines.append(line)

    def after_roll(self) -> None:
        """What follows when a day has begun: nothing but where a writer of lines has more."""

    def name(self) -> str | None:
        known = [n for n in self.names if n in self.machine.accounts]
        return self.draw.choice(known) if known else None

    def account(self, name: str) -> Account:
        return self.machine.accounts[name]

    def back(self, account: Account) -> int:
        """A day of a post: mostly today or shortly before."""
        kind = self.draw.randrange(100)
        opened = account.anchor.opened
        if kind < 50:
            day = self.today
        elif kind < 75:
            day = self.today - self.draw.randint(1, 10)
        elif kind < 89:
            day = self.today - self.draw.randint(11, 70)
        elif kind < 97:
            day = self.draw.randint(opened, self.today)
        elif kind < 98:
            return self.today + 1
        else:
            return opened - 1
        return max(day, opened)

    def amount(self) -> int:
        kind = self.draw.randrange(100)
        if kind < 8:
            return self.draw.choice((1, 2, 99, 100, 101))
        if kind < 60:
            return self.draw.randint(100, 20_000)
        if kind < 95:
            return self.draw.randint(20_000, 300_000)
        if self.chance(4):
            return 1_000_000_000
        return self.draw.choice((0, 1_000_000_001, 1_000_000_000_000, 999_999_999_999,
                                 5_000, 7_777, 12_345))

    def toward(self, account: Account) -> int:
        """An amount that fits what is owed, now and then any amount."""
        owed = self.machine.book(account).owed()
        if owed <= 0 or self.chance(12):
            return self.amount() if self.chance(20) else self.draw.randint(1, 3_000)
        return self.draw.choice((self.draw.randint(1, owed), self.draw.randint(1, owed),
                                 owed, max(1, owed - 1), owed + self.draw.randint(1, 900),
                                 max(1, owed // 20)))

    def number_of(self, account: Account, words: tuple[str, ...], wrong: int = 8) -> int:
        """The number of a post of one of the words, now and then of another one."""
        found = [k.number for k in account.posts if k.post.word in words]
        if not found or self.chance(wrong):
            return self.draw.choice((0, 1, self.draw.randint(1, len(account.posts) + 1),
                                     999_999_999_999))
        return self.draw.choice(found[-12:] if self.chance(70) else found)

    def place(self, account: Account) -> str:
        plans = [k.number for k in account.posts if k.post.word == "plan"]
        if plans and self.chance(45):
            return f"plan:{self.draw.choice(plans)}"
        if self.chance(2):
            return f"plan:{self.draw.randint(0, len(account.posts) + 1)}"
        return self.draw.choice(("purchase", "purchase", "purchase", "cash", "transfer"))

    def rate(self) -> int:
        return self.draw.choice((0, 599, 1599, 1999, 1999, 2499, 2999, 3599, 9999, 10_000)
                                if self.chance(30) else (999, 1599, 1999, 2499, 2999))
