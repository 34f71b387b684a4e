"""Findings that an account's posts show: notices, disputes, bills, records of billed cycles."""

from collections.abc import Iterator
from datetime import date, timedelta

from companion.days import last_bill_day
from companion.findings import ONE_DAY, Finding, View, year_after
from companion.history import Post

# A vintage of a notice begins on the fifteenth day after it.
VINTAGE = timedelta(days=15)
CUTOFF = 1020
ACKNOWLEDGE = 30
RESOLVE = 90


def post_findings(view: View) -> Iterator[Finding]:
    yield from early_notices(view)
    yield from late_answers(view)
    yield from taken_back(view)
    yield from late_bills(view)
    yield from charges_of_billed_cycles(view)
    yield from mail_on_closed_days(view)
    yield from partial_refunds(view)
    yield from other_lowered_rates(view)


def rate_before(view: View, notice: Post) -> int | None:
    """The rate of a category before a notice, None where it follows the index."""
    category = notice.request.fields["category"]
    before = [post for post in view.account.of("notice")
              if post.number < notice.number and post.request.fields["category"] == category]
    if before:
        return before[-1].number_in("rate")
    opening = view.account.opening
    return None if opening.word == "openvar" else opening.number_in(category)


def early_notices(view: View) -> Iterator[Finding]:
    """A notice whose fifteenth day lies in the first year: charges of that year rise later."""
    over = year_after(view.billed.opened)
    for notice in view.account.of("notice"):
        before = rate_before(view, notice)
        is_higher = before is None or notice.number_in("rate") > before
        if notice.day + VINTAGE >= over or not is_higher:
            continue
        category = notice.request.fields["category"]
        yield Finding(".55(b)(3)(iii)", view.name, notice.day,
                      f"notice {notice.number} raises the {category} rate of charges from "
                      f"{notice.day + VINTAGE} on, and the first year is over on {over}",
                      f"lower {view.name} KEY {notice.request.fields['effective']} {category} "
                      f"{'RATE' if before is None else before}")


def resolve_by(view: View, dispute: Post) -> date:
    """Two closings after the cycle of a dispute, and at most ninety days (.13(c)(2))."""
    cycle = 1
    while view.closing(cycle) < dispute.day:
        cycle += 1
    return min(view.closing(cycle + 2), dispute.day + timedelta(days=RESOLVE))


def late_answers(view: View) -> Iterator[Finding]:
    """A dispute acknowledged or resolved after the last day for it."""
    for dispute in view.account.of("dispute"):
        by = resolve_by(view, dispute)
        for found in view.account.naming("resolve", dispute.number):
            if found.day > by:
                yield Finding(".13(c)(2)", view.name, found.day,
                              f"dispute {dispute.number} was resolved on {found.day}, after {by}",
                              "credit what is left of the disputed amount, with what was charged "
                              "for it")
        last = dispute.day + timedelta(days=ACKNOWLEDGE)
        for found in view.account.naming("ack", dispute.number)[:1]:
            if found.day > last and not view.is_resolved(dispute, last):
                yield Finding(".13(c)(1)", view.name, found.day,
                              f"dispute {dispute.number} was acknowledged on {found.day}, after "
                              f"{last}", "nothing mends it; find out why")


def taken_back(view: View) -> Iterator[Finding]:
    """An amend that raises a charge in which an error was found: the finding is taken back."""
    for dispute in view.account.of("dispute"):
        charge = view.account.post(dispute.target)
        found = [one for one in view.account.naming("resolve", dispute.number) if one.cents]
        if charge is None or not found:
            continue
        cents = charge.cents
        for amend in view.account.naming("amend", charge.number):
            if amend.number > found[0].number and amend.cents > cents:
                yield Finding(".13(c)(2)", view.name, amend.accepted,
                              f"amend {amend.number} raises charge {charge.number} after an error "
                              f"of {found[0].cents} cents was found in it",
                              f"amend {view.name} KEY {charge.number} {charge.day} {cents}")
            cents = amend.cents


def late_bills(view: View) -> Iterator[Finding]:
    """A statement that was issued too late to ask for a payment."""
    for cycle, issued in sorted(view.billed.bills.items()):
        last = last_bill_day(view.closing(cycle))
        if issued > last:
            yield Finding(".5(b)(2)(ii)", view.name, issued,
                          f"statement {cycle} was issued on {issued}, after {last}: it asks for no "
                          "payment", "nothing is to be done for the account; send bills within "
                          "three days of the closing")


def charges_of_billed_cycles(view: View) -> Iterator[Finding]:
    """A charge or a credit that no statement shows: it lies in a cycle billed before."""
    billed = date.min
    for post in view.account.posts:
        if post.word == "bill":
            billed = max(billed, view.closing(post.number_in("cycle")))
        if post.word in ("charge", "credit") and post.day <= billed:
            day, cents = view.account.stands(post)
            if day <= billed and cents:
                section = ".8" if post.word == "charge" else ".7(b)(3)"
                yield Finding(section, view.name, post.accepted,
                              f"{post.word} {post.number} of {day} was entered after the statement "
                              f"of {billed}: none shows it as a transaction",
                              "send the consumer its day, amount and description with the next "
                              "statement, or give it a day after the closing by amend")


def mail_on_closed_days(view: View) -> Iterator[Finding]:
    """Mail that lay there on a closed due date, or came by the next business day, and is late."""
    for payment in view.account.of("payment"):
        if payment.request.fields["channel"] != "mail":
            continue
        day, cents = view.account.stands(payment)
        minute = payment.number_in("minute")
        for cycle in view.cycles():
            by = view.due(cycle)
            if view.is_business(by) or not by <= day or not cents:
                continue
            ahead = view.next_business(by)
            counts = day < ahead and (day > by or minute > CUTOFF) or \
                day == ahead and minute > CUTOFF
            if counts and view.asks(cycle) and is_short(view, cycle):
                yield Finding(".10(d)(1)", view.name, day,
                              f"payment {payment.number} by mail of {day} counts after the due "
                              f"date {by}, which was no business day",
                              mail_remedy(view.name, payment, by, cents))


def mail_remedy(name: str, payment: Post, by: date, cents: int) -> str:
    """What has mail count on the due date: another day, and by 17:00 another payment."""
    if payment.number_in("minute") <= CUTOFF:
        return f"amend {name} KEY {payment.number} {by} {cents}"
    return (f"amend {name} KEY {payment.number} {by} 0, and payment {name} KEY {by} {CUTOFF} mail "
            f"{cents}")


def is_short(view: View, cycle: int) -> bool:
    """Whether what a statement asked wasn't credited by its due date."""
    return view.credited(cycle, view.due(cycle)) < view.restated(cycle).minimum


def credit_on(view: View, day: date) -> int:
    """The credit balance at the end of a day."""
    return -sum(entry.cents for entry in view.entries
                if entry.segment == "credit" and entry.day <= day)


def partial_refunds(view: View) -> Iterator[Finding]:
    """A refund of less than was asked for, which ended the task all the same."""
    for asked in view.account.of("askrefund"):
        later = [post for post in view.account.of("refund") if post.number > asked.number]
        if not later:
            continue
        refund = later[0]
        credit = credit_on(view, refund.accepted)
        if 0 < credit and refund.cents < credit_on(view, asked.day):
            yield Finding(".11(a)(2)", view.name, refund.accepted,
                          f"refund {refund.number} of {refund.cents} cents left {credit} cents of "
                          "the credit balance that was asked for",
                          f"refund {view.name} KEY {credit_on(view, view.today)}")


def other_lowered_rates(view: View) -> Iterator[Finding]:
    """A lowered rate of another category than those that were increased ended a review's task."""
    for review in view.account.of("review"):
        if review.request.fields["finding"] != "reduce":
            continue
        raised = {post.request.fields["category"] for post in view.account.of("notice")
                  if post.number < review.number}
        lowered = [post for post in view.account.of("lower") if post.number > review.number]
        penalties = [post for post in view.account.of("penalty") if post.number < review.number]
        if not lowered or penalties or lowered[0].request.fields["category"] in raised:
            continue
        yield Finding(".59(a)(2)", view.name, lowered[0].accepted,
                      f"lower {lowered[0].number} is of {lowered[0].request.fields['category']}, "
                      f"and review {review.number} was of {', '.join(sorted(raised))}",
                      f"lower {view.name} KEY {view.today + ONE_DAY} CATEGORY RATE")
