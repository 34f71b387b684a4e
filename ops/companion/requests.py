"""The requests of a ledger by their words: fields, forms, lines, and what is wrong with a field."""

import re
from dataclasses import dataclass

from companion.days import day_of

CATEGORIES = ("purchase", "cash", "transfer")
CHOICES = {
    "category": CATEGORIES,
    "channel": ("mail", "online"),
    "plan": ("promo", "deferred"),
    "finding": ("keep", "reduce"),
}
TERMS = "account key day close purchase cash transfer penalty floor pct"

# The word of each code from 1 on, with the members behind it.
WORDS = {
    "roll": "day",
    "holiday": "day",
    "feerow": "day first repeat",
    "open": TERMS,
    "charge": "account key day place cents",
    "credit": "account key day place cents",
    "payment": "account key day minute channel cents",
    "return": "account key day target",
    "plan": "account key day plan rate end after",
    "notice": "account key day category rate effective",
    "lower": "account key day category rate",
    "penalty": "account key",
    "review": "account key day finding",
    "dispute": "account key day target cents",
    "ack": "account key day target",
    "resolve": "account key day target cents",
    "askrefund": "account key day",
    "refund": "account key cents",
    "amend": "account key target day cents",
    "bill": "account key cycle",
    "index": "day rate",
    "openvar": TERMS,
}
CODES = dict(enumerate(WORDS, start=1))
SHARED = ("roll", "holiday", "feerow", "index")
OPENINGS = ("open", "openvar")
COLUMNS = ("account", "key", "kind", "day", "place", "cents", "minute", "channel")
KINDS = ("charge", "credit", "payment")

# With a ninth column that names a post by its key, the companion takes these kinds too.
OF = "of"
KEYED_KINDS = (*KINDS, "return", "dispute", "ack", "resolve", "amend")
NUMBER_LIMIT = 999_999_999_999

FORMS = {"account": "name", "key": "name", "day": "day", "end": "day", "effective": "day",
         "place": "place"}
FORMS.update({name: name for name in CHOICES})

MEANINGS = {
    "first": "first fee", "repeat": "repeated fee", "close": "closing day of the month",
    "purchase": "purchase rate", "cash": "cash rate", "transfer": "transfer rate",
    "penalty": "penalty rate", "pct": "part", "target": "number of the post",
    "effective": "effective day", "after": "rate after the end",
}

WANTED = {
    "name": "a name: 1 to 32 of A-Z a-z 0-9 . _ -, the first a letter or a digit",
    "day": "a day YYYY-MM-DD from 2011-01-01 to 2099-12-31",
    "number": "a number: 1 to 12 digits, no sign, no point, no leading zero",
    "place": "purchase, cash, transfer, or plan: and a number",
    "kind": "charge, credit or payment",
}
WANTED.update({name: " or ".join(words) if len(words) == 2 else "purchase, cash or transfer"
               for name, words in CHOICES.items()})

NAME = re.compile(r"[A-Za-z0-9][A-Za-z0-9._-]{0,31}")
NUMBER = re.compile(r"0|[1-9][0-9]{0,11}")


@dataclass(frozen=True)
class Request:
    """A request: its word, and the text of each field by its name, in the order of the line."""

    word: str
    fields: dict[str, str]

    def line(self) -> str:
        return " ".join([self.word, *self.fields.values()])


def members_of(word: str) -> list[str]:
    return WORDS[word].split()


def form_of(member: str) -> str:
    return FORMS.get(member, "number")


def is_of_form(form: str, text: str) -> bool:
    """Whether a field's text is of its form."""
    if form == "name":
        return NAME.fullmatch(text) is not None
    if form == "day":
        return day_of(text) is not None
    if form == "number":
        return NUMBER.fullmatch(text) is not None
    if form == "place":
        if text.startswith("plan:"):
            return NUMBER.fullmatch(text[5:]) is not None
        return text in CATEGORIES
    return text in CHOICES[form]


def meaning_of(member: str) -> str:
    return MEANINGS.get(member, member)


def bad_line(line: str, field: int) -> str:
    """In words, what `bad` says of a field of a request line; the word is field 1."""
    if field == 0:
        return "the line has more than 512 bytes"
    parts = line.split(" ")
    if field == 1:
        return f"{parts[0]!r} is no word of a request" if line else "the line is empty"
    members = ["account"] if parts[0] == "show" else []
    if parts[0] in WORDS:
        members = members_of(parts[0])
    if field > len(members) + 1:
        return f"field {field} is surplus"
    if not members:
        return f"field {field} isn't as it should be"
    member = members[field - 2]
    name = f"field {field} ({meaning_of(member)})"
    if field > len(parts):
        return f"{name} is missing"
    return f"{name} is {parts[field - 1]!r}, wanted {WANTED[form_of(member)]}"


def bad_record(record: list[str], field: int, keyed: bool = False) -> str:
    """In words, what `bad` says of a column of a CSV record."""
    columns = (*COLUMNS, OF) if keyed else COLUMNS
    if field > len(columns):
        return f"column {field} is surplus"
    name = f"column {field} ({columns[field - 1]})"
    if field > len(record):
        return f"{name} is missing"
    column, text = columns[field - 1], record[field - 1]
    kind = record[2] if len(record) > 2 else ""
    if column == "kind" and keyed:
        return f"{name} is {text!r}, wanted {', '.join(KEYED_KINDS)}"
    if column == OF and text and kind not in KINDS:
        return f"{name} is {text!r}, and no post of the account has this key yet"
    if text and column not in ("account", "key", "kind", "day") and is_left_empty(kind, column):
        return f"{name} is {text!r}, and has to be empty for a {kind}"
    form = "kind" if column == "kind" else "name" if column == OF else form_of(column)
    return f"{name} is {text!r}, wanted {WANTED[form]}"


def is_left_empty(kind: str, column: str) -> bool:
    """Whether a record of a kind has nothing in a column."""
    if kind in KINDS:
        return column in (("place", OF) if kind == "payment" else ("minute", "channel", OF))
    if column == "cents":
        return kind in ("return", "ack")
    return kind in KEYED_KINDS and column in ("place", "minute", "channel")
