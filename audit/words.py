"""Requests: the table of words with their fields, and what a request holds."""

from dataclasses import dataclass
from typing import Any, NamedTuple

CATEGORIES = ("purchase", "cash", "transfer")
CHANNELS = ("mail", "online")
PLAN_KINDS = ("promo", "deferred")
FINDINGS = ("keep", "reduce")
NUMBER_LIMIT = 999_999_999_999

_TERMS = [(name, "number") for name in
          ("close", "purchase", "cash", "transfer", "penalty", "floor", "pct")]
_POST = [("account", "name"), ("key", "name")]

# word -> (code, fields after the word as (member name, form)), in the order of the codes
WORDS: dict[str, tuple[int, list[tuple[str, str]]]] = {
    "roll": (1, [("day", "day")]),
    "holiday": (2, [("day", "day")]),
    "feerow": (3, [("day", "day"), ("first", "number"), ("repeat", "number")]),
    "open": (4, _POST + [("day", "day")] + _TERMS),
    "charge": (5, _POST + [("day", "day"), ("place", "place"), ("cents", "number")]),
    "credit": (6, _POST + [("day", "day"), ("place", "place"), ("cents", "number")]),
    "payment": (7, _POST + [("day", "day"), ("minute", "number"), ("channel", "channel"),
                            ("cents", "number")]),
    "return": (8, _POST + [("day", "day"), ("target", "number")]),
    "plan": (9, _POST + [("day", "day"), ("plan", "plan"), ("rate", "number"),
                         ("end", "day"), ("after", "number")]),
    "notice": (10, _POST + [("day", "day"), ("category", "category"), ("rate", "number"),
                            ("effective", "day")]),
    "lower": (11, _POST + [("day", "day"), ("category", "category"), ("rate", "number")]),
    "penalty": (12, _POST),
    "review": (13, _POST + [("day", "day"), ("finding", "finding")]),
    "dispute": (14, _POST + [("day", "day"), ("target", "number"), ("cents", "number")]),
    "ack": (15, _POST + [("day", "day"), ("target", "number")]),
    "resolve": (16, _POST + [("day", "day"), ("target", "number"), ("cents", "number")]),
    "askrefund": (17, _POST + [("day", "day")]),
    "refund": (18, _POST + [("cents", "number")]),
    "amend": (19, _POST + [("target", "number"), ("day", "day"), ("cents", "number")]),
    "bill": (20, _POST + [("cycle", "number")]),
    "index": (21, [("day", "day"), ("rate", "number")]),
    "openvar": (22, _POST + [("day", "day")] + _TERMS),
}
SHARED_WORDS = ("roll", "holiday", "feerow", "index")
OPENINGS = ("open", "openvar")
AMENDABLE = ("charge", "credit", "payment")


class Place(NamedTuple):
    """A category, or the plan of a post number."""
    category: str | None
    plan: int | None = None


# The value of a field by its form: a name or word, a number or day, a place.
Value = str | int | Place
# Stands in the fields that a request's word doesn't have.  `WORDS` says which it has.
ABSENT: Any = None


@dataclass(frozen=True)
class Request:
    """One request with the fields of its word; the others are None.

    The type of a field is that of its value where the word has the field.
    A reader asks for the word first, or compares the field with None.

    In `plan` posts the member `plan` is the kind of the plan.  In `open` and
    `openvar` posts `purchase`, `cash`, `transfer` and `penalty` are the rates
    of the terms (margins for the first three of `openvar`).
    """
    word: str
    account: str = ABSENT
    key: str = ABSENT
    day: int = ABSENT
    place: Place = ABSENT
    cents: int = ABSENT
    minute: int = ABSENT
    channel: str = ABSENT
    target: int = ABSENT
    plan: str = ABSENT
    rate: int = ABSENT
    end: int = ABSENT
    after: int = ABSENT
    category: str = ABSENT
    effective: int = ABSENT
    finding: str = ABSENT
    cycle: int = ABSENT
    first: int = ABSENT
    repeat: int = ABSENT
    close: int = ABSENT
    purchase: int = ABSENT
    cash: int = ABSENT
    transfer: int = ABSENT
    penalty: int = ABSENT
    floor: int = ABSENT
    pct: int = ABSENT

    @property
    def is_shared(self) -> bool:
        return self.word in SHARED_WORDS


def request_of(word: str, values: dict[str, Value]) -> Request:
    """The request of a word with its fields by name, each with a value of its form."""
    fields: dict[str, Any] = dict(values)
    return Request(word, **fields)


class Kept(NamedTuple):
    """An accepted post: its number in the account, its day of acceptance, its content."""
    number: int
    accepted: int
    post: Request
