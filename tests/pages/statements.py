"""All issued statements of a ledger's file as data, and what a page shows."""

import re
from collections.abc import Iterable
from html import unescape
from typing import Any

from audit.ledger_file import copied, rows_of
from audit.statements.data import data_of
from audit.statements.issued import Reading, Wanted, bills_of
from audit.words import WORDS
from tests.support.program import PROGRAM, Word, apply

Data = dict[str, Any]
_BILL = WORDS["bill"][0]

# What stands in the data and not on the page: how a number was rounded or split, and for machines.
DATA_ONLY = ("format", "bill", "parts", "post", "target", "charge", "due_cycle", "exact",
             "interest_billionths", "cycle", "accepted")


def all_wanted(file: str) -> list[Wanted]:
    """Each account with all its bills, whatever their days."""
    with copied(file) as copy:
        kept = rows_of(copy)
    reading = Reading(-1)
    cycles: dict[str, list[int]] = {}
    for place, (seq, body) in enumerate(kept, start=1):
        reading.take(place, seq, body)
        if body[1] == _BILL:
            request = reading.request(place, body)
            cycles.setdefault(request.account, []).append(request.cycle)
            reading.ends[request.account] = seq
    reading.cycles = cycles
    return [reading.wanted(name) for name in cycles]


def all_data(file: str) -> list[tuple[Wanted, Data]]:
    return [(wanted, data_of(bill)) for wanted in all_wanted(file) for bill in bills_of(wanted)]


def ledger(file: Word, lines: Iterable[str]) -> None:
    """A file of these lines, all of which are accepted."""
    done = apply(file, lines)
    assert done.status == 0, done.text


def shown_text(page: str) -> str:
    """What a reader sees of a page, without markup."""
    body = page[page.index("<body>"):]
    return " ".join(unescape(re.sub(r"<[^>]*>", " ", body)).split())


def program() -> str:
    return PROGRAM
