"""The generated requests of `demo` and its summary."""

from .days import day_of, known_day
from .machine import Machine
from .money import money_text
from .words import CATEGORIES, Place, Request


class Generator:
    """A linear congruential generator below 2^64."""

    def __init__(self, start: int):
        self.x = start

    def next(self) -> int:
        self.x = (self.x * 6364136223846793005 + 1442695040888963407) % 2 ** 64
        return self.x // 2 ** 33


def demo_requests(start: int, accounts: int, cycles: int) -> list[Request]:
    """The requests in order; in each, numbers are drawn in the order in which they are named."""
    draw = Generator(start).next
    out = [Request("feerow", day=day_of("2011-01-02"), first=3000, repeat=4100),
           Request("roll", day=day_of("2024-01-20"))]
    for i in range(1, accounts + 1):
        out.append(Request("open", f"d{i}", "o", day=day_of("2024-01-05"), close=16 + draw() % 4,
                           purchase=1999, cash=2499, transfer=2199, penalty=2999, floor=2500,
                           pct=100))
    year, month = 2024, 1
    for t in range(1, cycles + 1):
        today = known_day(year, month, 20)
        for i in range(1, accounts + 1):
            name = f"d{i}"
            out.append(Request("bill", name, f"b{t}", cycle=t))
            for j in range(1, 5):
                day = today - draw() % 10
                place = Place(CATEGORIES[draw() % 3])
                out.append(Request("charge", name, f"c{t}-{j}", day=day, place=place,
                                   cents=100 + draw() % 20000))
            day = today - draw() % 10
            minute = draw() % 1440
            out.append(Request("payment", name, f"p{t}", day=day, minute=minute,
                               channel="online", cents=100 + draw() % 30000))
            out.append(Request("amend", name, f"a{t}", target=3, day=day_of("2024-01-10"),
                               cents=draw() % 5000))
        year, month = (year, month + 1) if month < 12 else (year + 1, 1)
        out.append(Request("roll", day=known_day(year, month, 20)))
    return out


def demo_text(start: int, accounts: int, cycles: int) -> str:
    """Runs the requests over a machine of its own and sums up."""
    machine = Machine()
    requests = demo_requests(start, accounts, cycles)
    replies = [machine.apply(r) for r in requests]
    refused = sum(reply.refused is not None for reply in replies)
    entries = [e for name in machine.accounts for e in machine.entries_of(name)]
    return (f"requests {len(requests)}\naccepted {len(requests) - refused}\nrefused {refused}\n"
            f"owed {money_text(sum(e.cents for e in entries))}\n"
            f"interest {money_text(sum(e.cents for e in entries if e.kind == 'interest'))}\n"
            f"fees {money_text(sum(e.cents for e in entries if e.kind == 'fee'))}\n")
