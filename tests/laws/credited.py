"""The day as of which a payment is credited, and that all of it is entered (12 CFR 1026.10)."""

import collections
import itertools

from .days import DAY, Date, day_of, days_between, is_business
from .papers import Account, Broken, Papers
from .payments import Payment, entries_of, payments_of

Count = collections.Counter[str]
CUT_OFF = 17 * 60  # minutes of a day


def closed_due_dates(account: Account, papers: Papers, came: Date) -> list[Date]:
    """The due dates without business for which mail of a day makes up: that is the first business
    day after them."""
    if not is_business(came, papers.holidays):
        return []
    return [due for _, due in account.dues_before(came)
            if not any(is_business(day, papers.holidays) for day in days_between(due, came - DAY))]


def credit_days(account: Account, papers: Papers, payment: Payment) -> list[Date]:
    """The days as of which a payment may be credited."""
    if payment.minute > CUT_OFF:
        return [payment.came + DAY]
    is_mail = payment.channel == "mail"
    makes_up = closed_due_dates(account, papers, payment.came) if is_mail else []
    return makes_up or [payment.came]


def makes_up_for(account: Account, papers: Papers, earlier: Payment, later: Payment) -> bool:
    """Whether the later payment is mail for a closed due date, and the earlier one came in since
    that date."""
    dues = closed_due_dates(account, papers, later.came)
    return later.channel == "mail" and any(
        later.credited == due <= earlier.came < later.came for due in dues)


def check_order(account: Account, papers: Papers, payments: list[Payment], count: Count) -> None:
    for earlier, later in itertools.permutations(payments, 2):
        came_later = (earlier.came, earlier.minute) > (later.came, later.minute)
        if earlier.channel != later.channel or came_later:
            continue
        assert earlier.credited is not None and later.credited is not None
        if earlier.credited <= later.credited:
            continue
        if not makes_up_for(account, papers, earlier, later):
            raise Broken(f"credited: {account.name}: payment {earlier.number} came in before "
                         f"{later.number}, and is credited later")
        count["credited, exception"] += 1


def check_credited(account: Account, papers: Papers, count: Count) -> None:
    """A payment is credited as of the day on which it came in; on the next day where that was after
    17:00; as of the due date where it is mail that makes up for one without business; and not later
    than one that came in after it by the same channel, unless that one is such mail."""
    payments = list(payments_of(account).values())
    for payment in payments:
        allowed = credit_days(account, papers, payment)
        if payment.credited is None and (payment.cents == 0 or max(allowed) > papers.today):
            continue
        count["credited"] += 1
        days = {entry.day for entry in entries_of(account, payment)}
        if len(days) != 1 or not days <= set(allowed):
            raise Broken(f"credited: {account.name}: payment {payment.number} came in on "
                         f"{payment.came} and is credited as of {payment.credited}")
        count["credited, mail"] += max(days) < payment.came
    check_order(account, papers, [payment for payment in payments if payment.credited], count)


def entered(account: Account, kind: str) -> collections.Counter[int]:
    """What the entries of each post of a kind take off what is owed."""
    found: collections.Counter[int] = collections.Counter()
    for entry in account.entries:
        if entry.kind == kind:
            found[entry.post] -= entry.cents
    return found


def check_whole(account: Account, papers: Papers, count: Count) -> None:
    """The entries of a payment or of a merchant's credit lower what is owed by its cents, as they
    were amended, once it counts; and by nothing before (.10(a), .53)."""
    payments, amended = entered(account, "payment"), account.amended()
    for payment in payments_of(account).values():
        if payment.credited is None and max(credit_days(account, papers, payment)) > papers.today:
            continue
        count["whole"] += 1
        if payments[payment.number] != payment.cents:
            raise Broken(f"whole: {account.name}: {payments[payment.number]} cents of payment "
                         f"{payment.number} are entered, which is of {payment.cents}")
    credits = entered(account, "credit")
    for post in account.of("credit"):
        day, cents = amended.get(post.number, (post.fields[0], post.fields[2]))
        wanted = int(cents) if day_of(day) <= papers.today else 0
        count["whole, credits"] += 1
        if credits[post.number] != wanted:
            raise Broken(f"whole: {account.name}: {credits[post.number]} cents of credit "
                         f"{post.number} are entered, which is of {wanted}")
