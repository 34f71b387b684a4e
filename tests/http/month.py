"""A household's month: 31 charges, a payment, a merchant's credit and the bill."""

from collections.abc import Iterator


def days() -> list[str]:
    """The 31 days of the cycle."""
    return [f"2023-12-{28 + i}" if i <= 3 else f"2024-01-{i - 3:02}" for i in range(1, 32)]


def month() -> Iterator[str]:
    """Its request lines."""
    yield "feerow 2011-01-02 3000 4100"
    yield "roll 2024-01-28"
    yield "open h-1 o 2023-12-29 28 1999 2499 2499 2999 2500 100"
    for i, day in enumerate(days(), 1):
        yield f"charge h-1 c{i} {day} purchase {1000 + 100 * i}"
    yield "payment h-1 p1 2024-01-15 600 online 20000"
    yield "credit h-1 r1 2024-01-20 purchase 2500"
    yield "roll 2024-01-29"
    yield "bill h-1 b1 1"


def statement() -> str:
    """Its statement, line by line."""
    moves = [(day, "CHARGE", i + 1, f"{10 + i}.00") for i, day in enumerate(days(), 1)]
    moves.append(("2024-01-15", "PAYMENT", 33, "-200.00"))
    moves.append(("2024-01-20", "CREDIT", 34, "-25.00"))
    before = [("PREVIOUS BALANCE", "0.00"), ("EARLIER CORRECTIONS", "0.00")]
    sums = [("FEES THIS PERIOD", "0.00"), ("INTEREST THIS PERIOD", "0.00"),
            ("FEES THIS YEAR", "0.00"), ("INTEREST THIS YEAR", "0.00"), ("NEW BALANCE", "581.00"),
            ("IN DISPUTE", "0.00"), ("MINIMUM PAYMENT", "25.00"),
            ("PAYMENT DUE DATE", "2024-02-24")]
    rate = ("purchase:2", "19.99%", "0.000547671", "0.00", "0.00")
    lines = [
        "STATEMENT h-1 CYCLE 1",
        "PERIOD 2023-12-29 TO 2024-01-28",
        *(f"{label:28} {value:>14}" for label, value in before),
        *(f"{day} {kind:10} {post:>6} {amount:>14}"
          for day, kind, post, amount in sorted(moves, key=lambda move: (move[0], move[2]))),
        *(f"{label:28} {value:>14}" for label, value in sums),
        "RATE {:12} {:>7} {:>12} {:>14} {:>14}".format(*rate),
        "LATE PAYMENT FEE UP TO 41.00 AND RATE UP TO 29.99%",
    ]
    return "".join(line + "\n" for line in lines)
