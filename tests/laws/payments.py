"""Payments as they were amended, with the place at which their entries are."""

from dataclasses import dataclass

from .days import Date, day_of
from .papers import Account, Entry


@dataclass
class Payment:
    number: int
    came: Date
    minute: int
    channel: str
    cents: int
    credited: Date | None = None  # None where its day of credit is to come
    place: int = 0  # among the entries


def payments_of(account: Account) -> dict[int, Payment]:
    """The payments by their numbers, with the day and the place at which their entries begin."""
    amended = account.amended()
    found = {}
    for post in account.of("payment"):
        day, minute, channel, cents = post.fields
        day, cents = amended.get(post.number, (day, cents))
        found[post.number] = Payment(post.number, day_of(day), int(minute), channel, int(cents))
    for place, entry in reversed(list(enumerate(account.entries))):
        if entry.kind == "payment":
            found[entry.post].credited, found[entry.post].place = entry.day, place
    return found


def entries_of(account: Account, payment: Payment) -> list[Entry]:
    return [entry for entry in account.entries
            if entry.kind == "payment" and entry.post == payment.number]


def returned_by(account: Account, payments: dict[int, Payment], place: int) -> set[int]:
    """The numbers of the payments whose return is among the first entries."""
    returns = {entry.post for entry in account.entries[:place] if entry.kind == "return"}
    return {int(account.posts[number].fields[1]) for number in returns} & set(payments)


def place_after(account: Account, day: Date) -> int:
    """How many entries are of a day or earlier ones."""
    return sum(entry.day <= day for entry in account.entries)


def paid_between(account: Account, payments: dict[int, Payment], closing: Date, last: Date) -> int:
    """What was credited after a closing and up to a day, and wasn't returned by then."""
    returned = returned_by(account, payments, place_after(account, last))
    return sum(payment.cents for payment in payments.values()
               if payment.credited and closing < payment.credited <= last
               and payment.number not in returned)
