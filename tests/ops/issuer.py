"""A month of an issuer of 50 accounts, drawn by a generator with a fixed start: what comes in, day
by day."""

import random
from collections.abc import Iterator
from datetime import date, timedelta

START = 20260301
ACCOUNTS = 50
FIRST = date(2026, 3, 1)
HEADER = "account,key,kind,day,place,cents,minute,channel\n"


class Issuer:
    """The accounts, and what their holders do on a day."""

    def __init__(self) -> None:
        self.draw = random.Random(START)
        self.names = [f"card-{number:02}" for number in range(1, ACCOUNTS + 1)]
        self.keys = 0
        self.posts = dict.fromkeys(self.names, 1)

    def opening(self) -> Iterator[str]:
        """The fee table, the first day, and the accounts, whose cycles close on each day of the
        month."""
        yield "feerow 2011-01-02 3000 4100"
        yield f"roll {FIRST}"
        yield "holiday 2026-03-30"
        for number, name in enumerate(self.names):
            opened = FIRST - timedelta(days=number % 25)
            yield f"open {name} o {opened} {number % 28 + 1} 1999 2499 2199 2999 2500 100"

    def record(self, day: date) -> str:
        """A charge, a merchant's credit or a payment of a day."""
        name, kind = self.draw.choice(self.names), self.draw.choice(("charge", "charge", "charge",
                                                                     "payment", "credit"))
        self.keys += 1
        self.posts[name] += 1
        cents = self.draw.randint(100, 60_000)
        if kind == "payment":
            minute, channel = self.draw.randrange(1440), self.draw.choice(("mail", "online"))
            return f"{name},k{self.keys},payment,{day},,{cents},{minute},{channel}\n"
        place = self.draw.choice(("purchase", "purchase", "cash", "transfer"))
        return f"{name},k{self.keys},{kind},{day},{place},{cents},,\n"

    def records(self, day: date) -> str:
        return HEADER + "".join(self.record(day) for _ in range(self.draw.randint(8, 20)))

    def lines(self, day: date) -> str:
        """Now and then a request of another kind: a refund that is asked for, or a plan with
        charges on it."""
        name = self.draw.choice(self.names)
        self.keys += 1
        if self.draw.randrange(2):
            return f"askrefund {name} k{self.keys} {day}\n"
        return f"lower {name} k{self.keys} {day} cash {self.draw.randint(1500, 2400)}\n"
