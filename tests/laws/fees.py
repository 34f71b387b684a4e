"""Late fees and the amounts of penalty fees."""

import collections

from .days import DAY, Date
from .papers import Account, Broken, FeeRow, Papers
from .payments import paid_between, payments_of

Count = collections.Counter[str]


def check_late_fees(account: Account, papers: Papers, count: Count) -> None:
    """A late fee is charged on the day after a due date; its statement was issued at least 21 days
    before that, and the payments credited since the closing, less those returned by then, fell
    short of the minimum payment (12 CFR 1026.5(b)(2)(ii))."""
    payments = payments_of(account)
    for fee in (entry for entry in account.entries if entry.kind == "fee" and entry.post == 0):
        count["late-fees"] += 1
        where = f"late-fees: {account.name}"
        dues = account.dues_before(fee.day)
        if not dues or dues[-1][1] + DAY != fee.day:
            raise Broken(f"{where}: the late fee of {fee.day} isn't of the day after a due date")
        number, due = dues[-1]
        if not account.is_due(number):
            raise Broken(f"{where}: the statement due on {due} wasn't issued 21 days before")
        paid = paid_between(account, payments, account.closing(number), due)
        if paid >= account.cycles[number].minimum:
            raise Broken(f"{where}: {paid} cents were paid by {due}, the minimum payment or more")


def row_in_force(papers: Papers, day: Date) -> FeeRow:
    """The fee row of the latest day up to a day, and of two for one day the later one."""
    rows = [row for row in papers.fee_rows if row.day <= day]
    latest = max((row.day for row in rows), default=None)
    return next((row for row in reversed(rows) if row.day == latest), FeeRow(day, 0, 0))


def fees_of(account: Account) -> list[tuple[Date, int, int]]:
    """The penalty fees in order: day, post and cents, which the entries of one fee add up to."""
    fees: collections.Counter[tuple[Date, int]] = collections.Counter()
    for entry in account.entries:
        if entry.kind == "fee":
            fees[entry.day, entry.post] += entry.cents
    return [(day, post, cents) for (day, post), cents in fees.items()]


def check_tiers(account: Account, papers: Papers, count: Count) -> None:
    """A penalty fee is at most the first amount in force on its day, or at most the repeat amount,
    and then one of its kind that is no more than the first amount is before it, in its cycle or one
    of the six before (12 CFR 1026.52(b)(1)(ii))."""
    firsts: list[tuple[bool, int]] = []  # of fees up to the first amount: late or not, the cycle
    for day, post, cents in fees_of(account):
        count["tiers"] += 1
        row, cycle, is_late = row_in_force(papers, day), account.cycle_of(day), post == 0
        if cents <= row.first:
            firsts.append((is_late, cycle))
            continue
        count["tiers, repeated"] += 1
        follows = any(late == is_late and earlier <= cycle <= earlier + 6
                      for late, earlier in firsts)
        if cents > row.repeat or not follows:
            raise Broken(f"tiers: {account.name}: a fee of {cents} cents on {day}, where the first "
                         f"amount is {row.first}")
