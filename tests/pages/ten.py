"""Ten statements whose pages are looked at, as one ledger: a first one, a deferred plan in its last
cycles, a variable rate that changed amid the cycle, a dispute, a credit balance, a penalty rate to
come, fees, corrections, sixty transactions, and sixty-four balances.
"""

from collections.abc import Iterator

TERMS = "5 1999 2499 2199 2999 2500 100"
FIRST = "2024-01-06"

# The account and the cycle of each statement, by what it has.
TEN = {
    "first": ("first", 1), "deferred": ("sofa", 7), "variable": ("variable", 1),
    "dispute": ("disputed", 1), "credit": ("credit", 2), "penalty": ("late", 4),
    "fees": ("fees", 2), "corrections": ("corrected", 2), "sixty": ("sixty", 1),
    "many": ("many", 1)}

DOLLARS = 1_000_000_000  # ten million of them
PLANS = 59
Days = dict[str, list[str]]


def closed(month: int) -> str:
    """The day after the closing of the cycle of this number."""
    return f"2024-{month + 1:02}-06"


def bills(name: str, count: int) -> Days:
    return {closed(k): [f"bill {name} b{k} {k}"] for k in range(1, count + 1)}


def first() -> Days:
    return {"2024-01-20": [
        "charge first c1 2024-01-09 purchase 4599", "charge first c2 2024-01-12 purchase 120000",
        "charge first c3 2024-01-15 cash 20000", "charge first c4 2024-01-18 transfer 250000",
        "payment first p1 2024-01-19 600 online 5000"]} | bills("first", 1)


def sofa() -> Days:
    found: Days = {FIRST: ["plan sofa d 2024-01-06 deferred 2499 2024-08-05 2499",
                           "charge sofa c1 2024-01-06 plan:2 180000"]}
    for month in range(2, 8):
        found[f"2024-{month:02}-20"] = [f"charge sofa m{month} 2024-{month:02}-10 purchase 3500",
                                        f"payment sofa p{month} 2024-{month:02}-20 600 mail 12000"]
    return found | bills("sofa", 7)


def variable() -> Days:
    return {"2024-01-10": ["charge variable c1 2024-01-08 purchase 80000",
                           "charge variable c2 2024-01-08 cash 30000"]} | bills("variable", 1)


def disputed() -> Days:
    return {"2024-01-20": ["charge disputed c1 2024-01-09 purchase 40000",
                           "charge disputed c2 2024-01-12 purchase 9900",
                           "dispute disputed d1 2024-01-20 2 25000"]} | bills("disputed", 1)


def credit() -> Days:
    return {"2024-01-20": ["charge credit c1 2024-01-09 purchase 10000"],
            "2024-02-20": ["payment credit p1 2024-02-20 600 online 25000",
                           "credit credit k1 2024-02-18 purchase 1500"]} | bills("credit", 2)


def late() -> Days:
    return {"2024-01-20": ["charge late c1 2024-01-09 purchase 90000",
                           "charge late c2 2024-01-09 cash 20000"],
            "2024-05-02": ["penalty late q"]} | bills("late", 4)


def fees() -> Days:
    return {"2024-01-20": ["charge fees c1 2024-01-10 purchase 100000"],
            "2024-02-20": ["payment fees p1 2024-02-20 600 online 1000"],
            "2024-03-04": ["return fees r1 2024-03-04 4"]} | bills("fees", 2)


def corrected() -> Days:
    return {"2024-01-20": ["charge corrected c1 2024-01-10 purchase 60000",
                           "charge corrected c2 2024-01-12 purchase 7500"],
            "2024-02-20": ["amend corrected a1 2 2024-01-10 45000",
                           "charge corrected late-slip 2024-01-30 purchase 2300",
                           "credit corrected k1 2024-02-02 purchase 1000",
                           "payment corrected p1 2024-02-10 600 online 20000"]
            } | bills("corrected", 2)


def sixty() -> Days:
    lines = [f"charge sixty card-slip-{n:02} 2024-01-{8 + n // 4:02} "
             f"{('purchase', 'purchase', 'purchase', 'cash')[n % 4]} {1000 + n * 371}"
             for n in range(56)]
    lines += [f"payment sixty payment-{n} 2024-01-{20 + n} 600 online {2500 + n}" for n in range(4)]
    return {"2024-01-24": lines} | bills("sixty", 1)


def many() -> Days:
    plans = [f"plan many p{at} {FIRST} promo {50 * at + 1} 2026-03-05 2999" for at in range(PLANS)]
    charges = [f"charge many {place} {FIRST} {place} {DOLLARS}"
               for place in ("purchase", "cash", "transfer")]
    charges += [f"charge many c{at} {FIRST} plan:{at + 2} {DOLLARS}" for at in range(PLANS)]
    return {FIRST: plans + charges} | bills("many", 1)


def merged(each: list[Days]) -> Iterator[str]:
    """The lines of all accounts, day after day."""
    for day in sorted({day for one in each for day in one}):
        if day != FIRST:
            yield f"roll {day}"
        for one in each:
            yield from one.get(day, [])


def lines() -> list[str]:
    """The ledger of the ten."""
    opened = [f"open {name} o {FIRST} {TERMS}" for name in (
        "first", "sofa", "disputed", "credit", "late", "fees", "corrected", "sixty")]
    return ["feerow 2011-01-02 3000 4100", "index 2011-01-02 550", "index 2024-01-20 575",
            f"roll {FIRST}", *opened,
            f"openvar variable o {FIRST} 5 1449 1949 1649 2999 2500 100",
            f"open many o {FIRST} 5 1999 2499 2199 2999 1000000 10",
            *merged([first(), sofa(), variable(), disputed(), credit(), late(), fees(),
                     corrected(), sixty(), many()])]
