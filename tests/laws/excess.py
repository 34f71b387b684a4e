"""The part of a payment above the minimum payment (12 CFR 1026.53)."""

import collections

from .days import Date, day_of
from .papers import Account, Broken, Papers
from .payments import Payment, entries_of, payments_of, returned_by
from .rates import has_one_rate, plan_of

Count = collections.Counter[str]
Cents = collections.Counter[str]


def is_in_last_two_cycles(account: Account, segment: str, day: Date) -> bool:
    """Whether a balance is deferred and its period ends with this cycle or the next one."""
    plan = plan_of(account, segment)
    if plan is None or plan.fields[1] != "deferred":
        return False
    return day <= day_of(plan.fields[3]) <= account.closing(account.cycle_of(day) + 1)


def minimum_left(account: Account, payments: dict[int, Payment], payment: Payment) -> int:
    """What the payments before one left of the last statement's minimum payment; nothing on the day
    of its issue."""
    assert payment.credited is not None
    last = account.cycle_of(payment.credited) - 1
    issued = account.issued(last)
    if last == 0 or not account.is_due(last) or issued is None or issued >= payment.credited:
        return 0
    returned = returned_by(account, payments, payment.place)
    paid = sum(other.cents for other in payments.values()
               if other.credited and account.closing(last) < other.credited
               and other.place < payment.place and other.number not in returned)
    return max(0, account.cycles[last].minimum - paid)


def balances_before(account: Account, place: int) -> dict[str, int]:
    """What is owed on each balance before an entry; what is in dispute isn't one, nor is a
    credit."""
    owed: Cents = collections.Counter()
    for entry in account.entries[:place]:
        owed[entry.segment] += entry.cents
    return {segment: cents for segment, cents in owed.items()
            if cents > 0 and segment not in ("credit", "held")}


def parts_of(account: Account, payment: Payment) -> Cents:
    """What of a payment went to each segment."""
    found: Cents = collections.Counter()
    for entry in entries_of(account, payment):
        found[entry.segment] -= entry.cents
    return found


def out_of_order(went: Cents, unpaid: dict[str, int], rates: dict[str, int],
                 deferred: set[str]) -> int:
    """The cents that went to a balance while another one that comes before it was left unpaid."""
    wrong = 0
    for segment, cents in went.items():
        others = [g for g, left in unpaid.items() if left > 0 and g != segment]
        if segment in deferred:
            continue
        if any(segment == "credit" or g in deferred or rates[g] > rates[segment] for g in others):
            wrong += cents
    return wrong


def rates_on(account: Account, papers: Papers, day: Date) -> dict[str, int]:
    """The rates of a day, where its cycle is closed and has one rate for each balance."""
    cycle = account.cycle_of(day)
    if cycle not in account.cycles or not has_one_rate(account, papers, cycle):
        return {}
    return {segment: rate.basis_points for segment, rate in account.cycles[cycle].rates.items()}


def check_payment(account: Account, papers: Papers, payments: dict[int, Payment], payment: Payment,
                  count: Count) -> None:
    """The part above the minimum payment may not be among the cents that went out of order."""
    assert payment.credited is not None
    owed, went = balances_before(account, payment.place), parts_of(account, payment)
    rates = rates_on(account, papers, payment.credited)
    where = f"excess: {account.name}: payment {payment.number}"
    for segment, cents in went.items():
        if segment != "credit" and cents > owed.get(segment, 0):
            raise Broken(f"{where}: more went to {segment} than is owed there")
    if len(owed) > 1 and not set(owed) <= set(rates):
        count["excess, passed over"] += 1
        return
    unpaid = {segment: cents - went[segment] for segment, cents in owed.items()}
    deferred = {segment for segment in owed
                if is_in_last_two_cycles(account, segment, payment.credited)}
    count["excess"] += len(owed) > 1
    count["excess, deferred"] += len(owed) > 1 and bool(deferred)
    wrong = out_of_order(went, unpaid, rates, deferred)
    minimum = minimum_left(account, payments, payment)
    if wrong > minimum:
        raise Broken(f"{where}: {wrong} cents went out of order, and {minimum} are the minimum "
                     "part")


def check_excess(account: Account, papers: Papers, count: Count) -> None:
    """What is paid above the minimum payment goes to no balance while one at a higher rate is left
    unpaid, deferred balances in the last two cycles of their period before all; to none more than
    is owed there; and none of it becomes a credit balance while something is unpaid."""
    payments = payments_of(account)
    for payment in payments.values():
        if payment.credited and payment.cents > minimum_left(account, payments, payment):
            check_payment(account, papers, payments, payment, count)
