"""The posts behind the corrections of earlier cycles, each with what it changed."""

from ..book import Book
from ..days import cycle_start, day_text
from ..fold import advance
from ..words import Kept
from .issued import Bill, Data
from .quick import first_changed, set_known

_LOOK_BACK = ("amend", "resolve", "return")


def owed_after(bill: Bill, count: int, day: int) -> int:
    """What was owed at the end of a day, by the first so many posts."""
    book = bill.book
    issued = {k: row for k, row in book.issued.items() if row.bill <= count}
    found = Book(book.anchor, book.posts[:count], issued, book.shared)
    set_known(found, bill.states, first_changed(found, book), day)
    return int(advance(found, day).owed())


def may_change(kept: Kept, day: int) -> bool:
    """A post may change what was owed at the end of a day."""
    own = kept.accepted if kept.post.day is None else kept.post.day
    return own <= day or kept.post.word in _LOOK_BACK


def corrections_of(bill: Bill) -> list[Data]:
    """Posts that were accepted after the statement before, and what each changed in its balance."""
    row = bill.book.issued.get(bill.cycle - 1)
    if row is None:
        return []
    day = cycle_start(bill.book.anchor, bill.cycle) - 1
    before, found = bill.statement.previous, []
    for kept in bill.book.posts[row.bill:bill.number]:
        if kept.post.word != "bill" and may_change(kept, day):
            after = owed_after(bill, kept.number, day)
            if after != before:
                found.append(correction_of(bill, kept, after - before))
            before = after
    return found


def correction_of(bill: Bill, kept: Kept, changed: int) -> Data:
    target = kept.post.target
    key = bill.book.posts[target - 1].post.key if target else None
    own = kept.accepted if kept.post.day is None else kept.post.day
    return {"post": kept.number, "key": kept.post.key, "kind": kept.post.word,
            "own_day": day_text(own), "accepted": day_text(kept.accepted),
            "target": target, "target_key": key, "changed": changed, "note": None}
