"""The transactions and fees of a cycle, what is in dispute, and what is to come."""

from ..book import Entry
from ..days import closing, day_text, due
from ..effects import NOTICE_DAYS
from ..segments import HELD, VINTAGE_DAYS
from ..statement import Move
from ..words import Kept, Place
from .issued import Bill, Data

KINDS = {"CHARGE": "charge", "CREDIT": "credit", "PAYMENT": "payment", "RETURN": "return",
         "REFUND": "refund", "FEE-LATE": "fee", "FEE-RETURN": "fee"}
GROUPS = ("payments", "other_credits", "purchases", "cash_advances", "transfers",
          "returned_payments", "refunds", "fees")
_GROUP = {"CREDIT": "other_credits", "PAYMENT": "payments", "RETURN": "returned_payments",
          "REFUND": "refunds", "FEE-LATE": "fees", "FEE-RETURN": "fees"}
_CHARGED = {"cash": "cash_advances", "transfer": "transfers"}


def place_text(place: Place | None) -> str | None:
    if place is None:
        return None
    return place.category or f"plan:{place.plan}"


def group_of(move: Move, kept: Kept | None) -> str:
    """The group of a transaction; a charge's is that of its place, a plan's that of purchases."""
    if move.kind != "CHARGE":
        return _GROUP[move.kind]
    place = kept.post.place if kept else None
    return _CHARGED.get((place.category if place else None) or "", "purchases")


def parts_of(bill: Bill, move: Move) -> list[Data]:
    """A transaction by the balances that it changed."""
    def is_part(entry: Entry) -> bool:
        return (entry.day, entry.kind, entry.post) == (move.day, KINDS[move.kind], move.post)

    sums: dict[int, int] = {}
    for entry in bill.book.entries:
        if is_part(entry):
            sums[entry.segment] = sums.get(entry.segment, 0) + entry.cents
    return [{"segment": bill.book.segments[s].name, "cents": cents}
            for s, cents in sorted(sums.items())]


def transaction_of(bill: Bill, move: Move) -> Data:
    kept = bill.book.posts[move.post - 1] if move.post else None
    target = kept.post.target if kept else None
    is_dated = kept is not None and kept.post.day is not None
    return {"day": day_text(move.day), "kind": move.kind, "group": group_of(move, kept),
            "post": move.post, "cents": move.cents, "parts": parts_of(bill, move),
            "key": kept.post.key if kept else None,
            "own_day": day_text(bill.book.corrected.day[move.post]) if is_dated else None,
            "accepted": day_text(kept.accepted) if kept else None,
            "place": place_text(kept.post.place) if kept else None,
            "target": target, "target_key": key_of(bill, target), "note": None}


def key_of(bill: Bill, number: int | None) -> str | None:
    return bill.book.posts[number - 1].post.key if number else None


def transactions_of(bill: Bill) -> list[Data]:
    return [transaction_of(bill, move) for move in bill.statement.moves]


def fees_of(bill: Bill) -> list[Data]:
    """Each fee with the due date that it is charged for."""
    return [{"day": day_text(fee.day), "kind": fee.kind, "post": fee.post, "cents": fee.cents,
             "due_cycle": fee.due_cycle, "due": day_text(due(bill.book.anchor, fee.due_cycle) or 0),
             "repeat": fee.repeat}
            for fee in bill.statement.cycle.fees]


def disputes_of(bill: Bill) -> list[Data]:
    """What is set aside at the closing, by dispute."""
    book, end = bill.book, bill.statement.cycle.closing
    held: dict[int, int] = {}
    for entry in book.of_segment[HELD]:
        if entry.day <= end:
            post = book.posts[entry.post - 1].post
            dispute = post.target if post.word == "resolve" else entry.post
            held[dispute or 0] = held.get(dispute or 0, 0) + entry.cents
    found = []
    for number, cents in sorted(held.items()):
        post = book.posts[number - 1].post
        if cents:
            found.append({"post": number, "key": post.key, "claimed": post.cents,
                          "held": cents, "charge": post.target,
                          "charge_key": key_of(bill, post.target),
                          "day": day_text(book.corrected.effective[number])})
    return found


def notices_of(bill: Bill) -> list[Data]:
    """Rates that are to take effect after the closing by a notice."""
    end, found = bill.statement.cycle.closing, []
    for kept in bill.book.posts:
        post = kept.post
        if post.word == "notice" and post.effective is not None and post.effective > end:
            found.append({"post": kept.number, "key": post.key, "category": post.category,
                          "rate": post.rate, "given": day_text(post.day or 0),
                          "effective": day_text(post.effective),
                          "charges_from": day_text((post.day or 0) + VINTAGE_DAYS)})
    return found


def penalties_of(bill: Bill) -> list[Data]:
    """Penalty rates that are to begin after the closing."""
    book, end, found = bill.book, bill.statement.cycle.closing, []
    begins = {penalty.begins for penalty in book.penalties}
    for kept in book.posts:
        first = kept.accepted + NOTICE_DAYS
        if kept.post.word == "penalty" and first in begins and first > end:
            found.append({"post": kept.number, "key": kept.post.key, "rate": book.terms.penalty,
                          "given": day_text(kept.accepted), "effective": day_text(first)})
    return found


def next_closing(bill: Bill) -> str | None:
    found = closing(bill.book.anchor, bill.cycle + 1)
    return day_text(found) if found is not None else None
