"""Sentences that say in words why the amounts that are asked about most are what they are."""

from ..days import day_text
from ..money import money_text
from .nodes import Node, value_text

MINIMUM_PART = (
    "Up to the required minimum payment, the issuer may choose which balance a payment goes to: "
    "Regulation Z sets the order only for what is above it (.53(a), comment 53-1). This ledger "
    "takes the balance with the lowest rate first, and the oldest of those with equal rates.")


def interest_of_days(purchases: bool, paid: Node | None, j: int, due: int, less: bool,
                     back: str) -> str:
    """Why a balance bears interest; `paid` compares what came in for statement j with what had to
    come in, where that statement is the reason.  `back` is what of a payment that was returned."""
    if not purchases:
        return ("This balance isn't one of purchases, so it has no grace period: each day's "
                "balance bears interest.")
    if paid is None or len(paid.of) < 2:
        return "Purchases bear interest on each day's balance in this cycle."
    came, asked = (node.value for node in paid.of[:2])
    said = (f"Statement {j} wasn't paid in full by its due date {day_text(due)}: {amount(came)} "
            f"came in by then, which is less than {money_text(asked)}. So interest is charged.")
    if less and came == 0:
        return f"{said} Each day's balance bears it."
    if less:
        return (f"{said} What was repaid by then bears none in this cycle. The rest bears it on "
                f"each day on which it is owed.{back}")
    return f"{said} Each day's balance bears it in this cycle, whatever was paid since."


def returned_since(name: str, day: int, closing: int) -> str:
    """What a payment costs that came in time and was returned up to the closing."""
    return (f" But the {name}, was returned on {day_text(day)}, up to the closing "
            f"{day_text(closing)}. So it doesn't count as repaid on the days before it came; from "
            "its day to its return nothing is charged on it.")


def amount(cents: int) -> str:
    """An amount in a sentence."""
    return money_text(cents) if cents else "nothing"


def fee_of(name: str, missed: str, table: Node, tier: tuple[bool, str], least: Node,
           cents: int) -> str:
    """Why a penalty fee is charged, and why it isn't higher; `tier` is whether it is at the repeat
    amount, and the cycles that were looked at."""
    step, since = (("repeat", f"since a {name} at the first amount was charged in") if tier[0] else
                   ("first", f"since no {name} was charged at it before in"))
    said = (f"{missed} The {step} amount of the fee table for a {name} is "
            f"{money_text(table.value)}. It is taken, {since} {tier[1]}.")
    bound = min(node.value for node in least.of[1:])
    if bound < table.value:
        said += (f" But no penalty fee may exceed the minimum payment that was due, "
                 f"{money_text(bound)}.")
    return f"{said} So the fee is {money_text(cents)}."


def minimum_of(balance: Node, share: Node, pct: Node, charges: Node, floor: Node,
               late: Node | None, cents: int) -> str:
    """How a minimum payment is made up."""
    more = charges.value > floor.value
    said = (f"{value_text(pct.value, pct.unit)} of the balance {money_text(balance.value)} is "
            f"{money_text(share.value)}. With the interest and the fees of the cycle that is "
            f"{money_text(charges.value)}, {'more' if more else 'not more'} than the floor of "
            f"{money_text(floor.value)}.")
    if late is not None and late.value:
        said += f" To this is added what is past due, {money_text(late.value)}."
    asked = max(charges.value, floor.value) + (late.value if late is not None else 0)
    if balance.value < asked:
        said += " No more is asked for than the balance."
    return f"{said} So {money_text(cents)} is asked for."


def held_down(k: int, now: Node, shown: Node) -> str:
    """Where an issued statement holds a number down; nothing where it doesn't."""
    if now.value <= shown.value:
        return ""
    return (f"By these rows it would be {money_text(now.value)}. Statement {k} was issued with "
            f"{money_text(shown.value)}, and no correction raises that.")
