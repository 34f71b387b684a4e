"""What each kind of post does on its effective day."""

from . import allocation
from .allocation import Rank
from .book import Book
from .days import closing, cycle_of
from .due_dates import charge_fee, penalty_fee
from .payments import minimum_left, sixty_days_late
from .rates import Penalty
from .segments import CREDIT, HELD, Segment, newest, segment_at, segments_at

NOTICE_DAYS = 45  # from the acceptance of a penalty to its first day


def charged_segment(book: Book, number: int) -> int:
    """The segment of a charge by its corrected day."""
    return segment_at(book.segments, book.posts[number - 1].post.place, book.corrected.day[number])


def last_two_of(book: Book, segment: Segment, x: int) -> int | None:
    """The end of a deferred balance that is in the last two cycles of its period, else None."""
    k = cycle_of(book.anchor, x)
    ends = (closing(book.anchor, k), closing(book.anchor, k + 1))
    return segment.ends if segment.sort == "deferred" and segment.ends in ends else None


def ranks(book: Book, x: int) -> list[Rank]:
    """Per segment the rate of the day and the end of the last two cycles."""
    return [Rank(book.rates.rate_on(s.number, x), last_two_of(book, s, x)) for s in book.segments]


def charge(book: Book, number: int, x: int) -> None:
    book.debit(x, charged_segment(book, number), "charge", number, book.corrected.cents[number])


def payment(book: Book, number: int, x: int) -> None:
    """First what is left of the minimum payment, then the excess."""
    cents = book.corrected.cents[number]
    minimum_part = min(cents, minimum_left(book, number, x))
    parts = allocation.allocate(book.balances(), ranks(book, x), minimum_part, cents)
    for segment, reached in parts:
        book.enter(x, segment, "payment", number, -reached)


def credit(book: Book, number: int, x: int) -> None:
    """A merchant's credit goes first to its place."""
    first = segments_at(book.segments, book.posts[number - 1].post.place)
    parts = allocation.place_credit(book.balances(), ranks(book, x), first,
                                    book.corrected.cents[number])
    for segment, reached in parts:
        book.enter(x, segment, "credit", number, -reached)


def put_back(book: Book, number: int, paid: int, x: int) -> None:
    """The parts of a payment come back, the credit balance first; what had gone there goes to the
    newest vintage of purchases."""
    parts = sorted((e.segment, -e.cents) for e in book.entries
                   if e.kind == "payment" and e.post == paid)
    for segment, cents in parts:
        to = newest(book.segments, "purchase", x) if segment == CREDIT else segment
        book.debit(x, to, "return", number, cents)


def returned(book: Book, number: int, x: int) -> None:
    """A returned payment, with its fee for the due date of the last statement that had closed when
    the payment was credited; a void payment has none."""
    paid = book.posts[number - 1].post.target
    put_back(book, number, paid, x)
    k = cycle_of(book.anchor, book.corrected.effective[paid]) - 1
    if book.corrected.cents[paid] != 0 and k >= 1:
        charge_fee(book, penalty_fee(book, k, "returned", x, number))


def dispute(book: Book, number: int, x: int) -> None:
    """Set aside is the least of the claim, of the charge as it stands and of its segment's
    balance."""
    target = book.posts[number - 1].post.target
    segment = charged_segment(book, target)
    held = min(book.corrected.cents[number], book.corrected.cents[target], book.balance(segment))
    book.holds[number] = (segment, held)
    book.enter(x, segment, "hold", number, -held)
    book.enter(x, HELD, "hold", number, held)


def resolve(book: Book, number: int, x: int) -> None:
    """What the dispute set aside comes back."""
    segment, held = book.holds[book.posts[number - 1].post.target]
    book.enter(x, HELD, "hold", number, -held)
    book.debit(x, segment, "hold", number, held)


def refund(book: Book, number: int, x: int) -> None:
    book.debit(x, newest(book.segments, "purchase", x), "refund", number,
               book.corrected.cents[number])


def penalized(book: Book, number: int, x: int) -> None:
    """The penalty rate begins 45 days on, where the account is sixty days late by all
    corrections."""
    if sixty_days_late(book, x):
        book.penalties.append(Penalty(x + NOTICE_DAYS, None))


EFFECTS = {"charge": charge, "payment": payment, "credit": credit, "return": returned,
           "dispute": dispute, "resolve": resolve, "refund": refund, "penalty": penalized}


def effect(book: Book, number: int, x: int) -> None:
    """The effect of a post on its effective day; the other kinds have none."""
    found = EFFECTS.get(book.posts[number - 1].post.word)
    if found is not None:
        found(book, number, x)
