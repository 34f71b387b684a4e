"""Random request lines: plausible and nasty, the same for the same seed.

    python3 -m audit.generate SEED N [--accounts A]

prints N lines.  A machine runs beside the generator, so most posts fit the
state.
"""

import argparse

from .days import closing_day, cycle_of, day_of, day_text, due_day
from .lines import line_text
from .post_lines import PostLines
from .product import WORDS_TO_COME
from .segments import segments_of

# how often each kind of line is tried
WEIGHTS = {
    "roll": 16, "bill": 5, "charge": 18, "payment": 15, "credit": 3, "return": 4, "plan": 3,
    "notice": 3, "lower": 2, "penalty": 3, "review": 2, "dispute": 4, "ack": 2, "resolve": 4,
    "askrefund": 2, "refund": 3, "amend": 9, "open": 2, "openvar": 2, "holiday": 2, "feerow": 2,
    "index": 2, "repeat": 3, "reuse": 2, "bad": 2, "stranger": 1, "show": 8,
}
MOODS = ("careful", "least", "late", "over", "least", "late", "late", "late")


class Writer(PostLines):
    """Writes lines one after the other."""

    def first_lines(self) -> None:
        start = day_of("2023-01-01") + self.draw.randint(0, 700)
        if self.chance(90):
            self.emit("feerow 2011-01-02 3000 4100")
        if "index" not in self.unknown:
            self.emit(f"index {day_text(start - 900)} {self.draw.randint(0, 900)}")
        self.emit(f"roll {day_text(start)}")
        for name in self.names:
            self.open_account(name)

    def open_account(self, name: str) -> None:
        variable = "openvar" not in self.unknown and self.chance(35)
        kind = self.draw.randrange(100)
        back = (self.draw.randint(0, 60) if kind < 45 else self.draw.randint(200, 420)
                if kind < 97 else self.draw.randint(-1, 950))
        rates = [self.draw.choice((999, 1999, 2499, 2199, 0, 9999) if self.chance(25)
                                  else (1449, 1999, 2499, 2199)) for _ in range(3)]
        floor = self.draw.choice((2500, 2500, 5000, 0, 1_000_000, 700))
        pct = self.draw.choice((100, 100, 200, 0, 10_000, 150))
        self.emit(f"{'openvar' if variable else 'open'} {name} o {day_text(self.today - back)} "
                  f"{self.draw.randint(1, 28)} {rates[0]} {rates[1]} {rates[2]} "
                  f"{self.draw.choice((2999, 2999, 3499, 1599))} {floor} {pct}")
        self.mood[name] = self.draw.choice(MOODS)

    def after_roll(self) -> None:
        """Statements that have become due are mostly billed soon, and moods change."""
        for name, account in self.machine.accounts.items():
            k = cycle_of(account.anchor, self.today) - 1
            if k >= 1 and k not in account.issued and self.chance(70):
                self.wanted.append(f"bill {name} {self.key()} {k}")
            if self.chance(3):
                self.mood[name] = self.draw.choice(MOODS)

    def line_roll(self) -> None:
        kind = self.draw.randrange(100)
        name = self.name()
        anchor = self.account(name).anchor if name else None
        if anchor is None or kind < 20:
            day = self.today + 1
        elif kind < 66:
            nexts = [closing_day(a.anchor, cycle_of(a.anchor, self.today))
                     for a in self.machine.accounts.values()]
            day = min(nexts) + self.draw.choice((1, 1, 1, 2, 3, 5))
        elif kind < 82:
            k = max(1, cycle_of(anchor, self.today) - self.draw.randint(0, 1))
            day = due_day(anchor, k) + self.draw.choice((0, 1, 1, 2))
            day = day if day > self.today else self.today + self.draw.randint(1, 5)
        elif kind < 95:
            day = self.today + self.draw.randint(2, 9)
        elif kind < 96:
            day = self.today + self.draw.randint(30, 80)
        elif kind < 98:
            day = self.today + 367
        else:
            day = self.today - self.draw.randint(0, 3)
        self.emit(f"roll {day_text(day)}")

    def line_open(self) -> None:
        name = self.name()
        if name is None or self.chance(30):
            return
        # an account that is there, with a new key; or bad terms
        if self.chance(50):
            self.emit(f"open {name} {self.key()} {day_text(self.today)} "
                      f"5 1999 2499 2199 2999 2500 100")
        else:
            terms = [5, 1999, 2499, 2199, 2999, 2500, 100]
            place = self.draw.randrange(7)
            terms[place] = (29, 10_000, 10_000, 10_000, 10_000, 1_000_001, 10_001)[place]
            self.emit(f"open bad{self.keys} o {day_text(self.today)} " + " ".join(map(str, terms)))

    def line_openvar(self) -> None:
        name = f"v{self.keys}" if self.chance(50) else self.name()
        if name is None:
            return
        day = self.draw.choice((self.today, self.today - 2_000, self.today + 1))
        self.emit(f"openvar {name} {self.key()} {day_text(day)} {self.draw.choice((0, 5, 9, 28))} "
                  f"1449 1949 1649 2999 2500 100")
        if name in self.machine.accounts and name not in self.names and len(self.names) < self.most:
            self.names.append(name)

    def line_holiday(self) -> None:
        name = self.name()
        day = self.today + self.draw.randint(1, 40)
        if name and self.chance(60):
            anchor = self.account(name).anchor
            k = max(1, cycle_of(anchor, self.today) - self.draw.randint(0, 1))
            day = due_day(anchor, k) + self.draw.choice((0, 1, 2))
        if self.chance(4):
            day = self.today
        self.emit(f"holiday {day_text(day)}")

    def line_feerow(self) -> None:
        day = self.today + self.draw.choice((1, 1, 10, 40, 0))
        first = self.draw.choice((2500, 3000, 3200, 0, 100_000))
        repeat = first + self.draw.choice((0, 1000, 1100)) - (1 if self.chance(10) else 0)
        self.emit(f"feerow {day_text(day)} {max(0, first)} {max(0, repeat)}")

    def line_index(self) -> None:
        day = self.today + self.draw.choice((1, 1, 5, 30, 0))
        rate = self.draw.choice((0, 300, 525, 550, 575, 9_000, 10_000))
        self.emit(f"index {day_text(day)} {rate}")

    def line_repeat(self) -> None:
        posts = [r for r in self.sent if not r.is_shared]
        if posts:
            self.emit(line_text(self.draw.choice(posts[-60:])))

    def line_reuse(self) -> None:
        """A key that is in the account, with other content."""
        posts = [r for r in self.sent if not r.is_shared and r.account in self.machine.accounts]
        if posts:
            old = self.draw.choice(posts[-60:])
            day = day_text(max(old.day or self.today, self.account(old.account).anchor.opened))
            self.emit(f"charge {old.account} {old.key} {day} purchase {self.draw.randint(1, 500)}")

    def line_bad(self) -> None:
        name = self.name() or "a"
        self.lines.append(self.draw.choice((
            "", "hello", f"charge {name}", f"charge {name} k 2024-02-30 purchase 5",
            "roll  2024-01-01",
            f"payment {name} k 2024-01-10 600 phone 5", f"charge {name} k 2024-01-10 purchase 05",
            f"bill {name} k 1 1", f"show {name} ", "show -", "x" * 513, f"show {'y' * 33}",
            f"charge {name} k 2024-01-10 plan: 5", f"plan {name} k 2024-01-10 zero 0 2024-09-10 0",
            f"refund {name} k -5", f"amend {name} k 2 2024-01-10 1000000000000")))

    def line_stranger(self) -> None:
        self.emit(self.draw.choice((
            f"charge nobody {self.key()} {day_text(self.today)} purchase 100", "show nobody",
            f"bill nobody {self.key()} 1", f"penalty nobody {self.key()}")))

    def line_show(self) -> None:
        name = self.name()
        if name:
            self.emit(f"show {name}")

    def step(self) -> None:
        if self.wanted and self.chance(85):
            self.emit(self.wanted.pop(0))
            return
        kind = self.draw.choices(list(WEIGHTS), list(WEIGHTS.values()))[0]
        if self.many and self.chance(40):
            kind = "plan"
        method = getattr(self, f"line_{kind}")
        if kind in ("roll", "open", "openvar", "holiday", "feerow", "index", "repeat", "reuse",
                    "bad", "stranger", "show"):
            method()
            return
        name = self.name()
        if name is None:
            self.open_account(self.draw.choice(self.names))
            return
        account = self.account(name)
        if kind in ("plan", "notice") and len(segments_of(account.anchor, account.posts)) > 14:
            if not self.many and not self.chance(10):
                return
        method(name, account)


def generate(seed: int, n: int, accounts: int = 3,
             unknown: frozenset[str] = WORDS_TO_COME) -> list[str]:
    """The first n lines for a seed."""
    writer = Writer(seed, accounts, unknown)
    writer.first_lines()
    while len(writer.lines) < n:
        writer.step()
    return writer.lines[:n]


def main() -> None:
    parser = argparse.ArgumentParser(prog="python3 -m audit.generate",
                                     description="Prints random request lines.")
    parser.add_argument("seed", metavar="SEED", type=int)
    parser.add_argument("n", metavar="N", type=int)
    parser.add_argument("--accounts", metavar="A", type=int, default=3)
    given = parser.parse_args()
    for line in generate(given.seed, given.n, given.accounts):
        print(line)


if __name__ == "__main__":
    main()
