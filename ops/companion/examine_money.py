"""Findings that entries and statements show: charges while a dispute was open, and rates."""

from collections.abc import Iterator

from companion.findings import ONE_DAY, Finding, View
from companion.late import fee_of
from companion.texts import Printed, Rate, money

BILLION = 10**9


def money_findings(view: View) -> Iterator[Finding]:
    for cycle in view.cycles():
        if view.asks(cycle):
            yield from fee_in_dispute(view, cycle)
            yield from grace_in_dispute(view, cycle)
        yield from several_rates(view, cycle)
    yield from penalties(view)


def fee_in_dispute(view: View, cycle: int) -> Iterator[Finding]:
    """A late fee though all that was missing was in dispute."""
    day = view.due(cycle)
    fee = fee_of(view.entries, day)
    claimed = view.disputed(cycle, day) if fee else 0
    if not claimed:
        return
    missing = view.restated(cycle).minimum - view.credited(cycle, day)
    if missing <= claimed:
        yield Finding(".13(d)(1)", view.name, day + ONE_DAY,
                      f"a late fee of {money(fee)} on statement {cycle}, of which {money(missing)} "
                      f"was missing and {money(claimed)} in dispute",
                      f"credit {view.name} KEY {view.today} purchase {fee}")


def grace_amount(view: View, printed: Printed) -> int:
    """What keeps the grace period: the balance without what is in dispute or deferred for long."""
    ahead = view.closing(printed.cycle + 1)
    deferred = sum(cents for cents, last in printed.plans if last > ahead)
    return max(0, printed.numbers.get("NEW BALANCE", 0) - printed.numbers.get("IN DISPUTE", 0)
               - deferred)


def interest_on_purchases(view: View, cycle: int) -> int:
    """The interest that a cycle charged on purchases."""
    if cycle not in view.cycles():
        return 0
    return sum(rate.interest for rate in view.restated(cycle).rates
               if rate.segment.startswith("purchase"))


def grace_in_dispute(view: View, cycle: int) -> Iterator[Finding]:
    """Interest on purchases though all that was unpaid of a statement was in dispute."""
    day = view.due(cycle)
    claimed = view.disputed(cycle, day)
    if not claimed:
        return
    first = view.closing(cycle) + ONE_DAY
    credits = -sum(entry.cents for entry in view.entries
                   if entry.kind == "credit" and first <= entry.day <= day)
    left = grace_amount(view, view.restated(cycle)) - view.credited(cycle, day) - credits
    interest = interest_on_purchases(view, cycle + 1)
    if 0 < left <= claimed and interest:
        yield Finding(".13(d)(1)", view.name, view.closing(cycle + 1),
                      f"{money(interest)} of interest on purchases: statement {cycle} wasn't paid "
                      f"by {money(left)}, and {money(claimed)} of it was in dispute",
                      f"credit {view.name} KEY {view.today} purchase {interest}, and what the next "
                      "cycle charges")


def penalties(view: View) -> Iterator[Finding]:
    """A penalty rate for what was in dispute, and a second one for the same delinquency."""
    before: dict[int, int] = {}
    for penalty in view.account.of("penalty"):
        day = penalty.accepted
        late = view.long_late(day)
        if late and all(missing <= view.disputed(cycle, day) for cycle, missing in late.items()):
            yield Finding(".13(d)(1)", view.name, day,
                          f"penalty {penalty.number} was given while all that was missing of "
                          f"{cycles(late)} was in dispute",
                          f"lower {view.name} KEY {view.today} CATEGORY RATE for each category, "
                          "and credit the difference in interest")
        both = {cycle: late[cycle] for cycle in late if cycle in before}
        if both:
            yield Finding(".55(b)(4)(ii)", view.name, day,
                          f"penalty {penalty.number} is a second one for {cycles(both)}: it ends "
                          "with the sixth due date met after it, and not after the first one",
                          f"lower {view.name} KEY DAY CATEGORY RATE on the day after the sixth "
                          "due date met since the first penalty")
        before.update(late)
    late = view.long_late(view.today) if not before else {}
    if late and all(left <= view.disputed(cycle, view.today) for cycle, left in late.items()):
        yield Finding(".13(d)(1)", view.name, view.today,
                      f"it counts as sixty days late on {cycles(late)}, and all that is missing is "
                      "in dispute", "send no penalty until the dispute is resolved")


def cycles(late: dict[int, int]) -> str:
    return "statement " + " and ".join(str(cycle) for cycle in sorted(late))


def has_several(rate: Rate, days: int) -> bool:
    """Whether the interest of a RATE line isn't that of its average at its one rate.

    Average and interest are each rounded to a cent, so they may differ by as much.
    """
    if rate.segment.startswith("deferred") and rate.yearly == 0:
        return False
    by_one = rate.average * days * rate.daily
    return 2 * abs(rate.interest * BILLION - by_one) > BILLION + days * rate.daily


def several_rates(view: View, cycle: int) -> Iterator[Finding]:
    """A statement whose RATE line has one rate, where several applied in the cycle."""
    if cycle not in view.billed.bills:
        return
    printed = view.issued(cycle)
    for rate in printed.rates:
        if has_several(rate, printed.days):
            yield Finding(".7(b)(4)", view.name, printed.closing,
                          f"statement {cycle} shows {rate.yearly // 100}.{rate.yearly % 100:02}% "
                          f"of {rate.segment} alone, and its interest of {money(rate.interest)} "
                          "is of several rates",
                          "send each rate with the days on which it applied; `ledger explain` "
                          "shows them")
