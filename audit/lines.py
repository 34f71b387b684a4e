"""Request lines and reply lines."""

import re
from collections.abc import Callable, Sequence
from typing import NamedTuple

from .days import FIRST_DAY, LAST_REQUEST_DAY, day_text, from_ymd
from .machine import Reply
from .product import WORDS_TO_COME
from .words import (
    CATEGORIES, CHANNELS, FINDINGS, PLAN_KINDS, WORDS, Place, Request, Value, request_of,
)

LINE_LIMIT = 512
_NAME = re.compile(rb"[A-Za-z0-9][A-Za-z0-9._-]{0,31}")
_NUMBER = re.compile(rb"0|[1-9][0-9]{0,11}")
_SHOW = [("account", "name")]
_DAY = re.compile(rb"([0-9]{4})-([0-9]{2})-([0-9]{2})")


class Bad(NamedTuple):
    """A line that isn't of its form, with the number of the field."""
    field: int


class Show(NamedTuple):
    account: str


def read_name(text: bytes) -> str | None:
    return text.decode("ascii") if _NAME.fullmatch(text) else None


def read_number(text: bytes) -> int | None:
    return int(text) if _NUMBER.fullmatch(text) else None


def read_day(text: bytes) -> int | None:
    """An existing day of requests as `YYYY-MM-DD`."""
    match = _DAY.fullmatch(text)
    day = from_ymd(*map(int, match.groups())) if match else None
    return day if day is not None and FIRST_DAY <= day <= LAST_REQUEST_DAY else None


def read_place(text: bytes) -> Place | None:
    if text.startswith(b"plan:"):
        number = read_number(text[5:])
        return None if number is None else Place(None, number)
    category = _word_of(CATEGORIES)(text)
    return None if category is None else Place(category)


def _word_of(words: Sequence[str]) -> Callable[[bytes], str | None]:
    return lambda text: next((w for w in words if w.encode() == text), None)


# form -> reader of its bytes, which answers None where they aren't of the form
FORMS: dict[str, Callable[[bytes], Value | None]] = {
    "name": read_name, "number": read_number, "day": read_day, "place": read_place,
    "category": _word_of(CATEGORIES), "channel": _word_of(CHANNELS),
    "plan": _word_of(PLAN_KINDS), "finding": _word_of(FINDINGS),
}


def read_line(line: bytes, unknown: frozenset[str] = WORDS_TO_COME) -> Request | Show | Bad:
    """Reads a line without its line feed; the words in `unknown` aren't in the table yet.

    The word is field 1.  The first field from the left that is missing,
    surplus or not of its form makes the line bad.
    """
    if len(line) > LINE_LIMIT:
        return Bad(0)
    fields = line.split(b" ")
    word = fields[0].decode("ascii", "replace")
    if word == "show":
        forms = _SHOW
    elif word in WORDS and word not in unknown:
        forms = WORDS[word][1]
    else:
        return Bad(1)
    values: dict[str, Value] = {}
    for place, (name, form) in enumerate(forms, start=1):
        value = FORMS[form](fields[place]) if place < len(fields) else None
        if value is None:
            return Bad(place + 1)
        values[name] = value
    if len(fields) > len(forms) + 1:
        return Bad(len(forms) + 2)
    return Show(fields[1].decode("ascii")) if word == "show" else request_of(word, values)


def split_lines(data: bytes) -> list[bytes]:
    """The lines of the input.

    A line of at most 512 bytes before its line feed loses one carriage return
    directly before it; a longer one stays longer than 512 bytes.  The end of
    the input ends a last line that isn't empty.
    """
    pieces = data.split(b"\n")
    last = pieces.pop()
    lines = [p[:-1] if len(p) <= LINE_LIMIT and p.endswith(b"\r") else p for p in pieces]
    if last:
        lines.append(last)
    return lines


def line_text(r: Request) -> str:
    """The request line of a request, without a line feed."""
    words = [r.word]
    for name, form in WORDS[r.word][1]:
        value = getattr(r, name)
        if form == "day":
            words.append(day_text(value))
        elif form == "place":
            words.append(value.category or f"plan:{value.plan}")
        else:
            words.append(str(value))
    return " ".join(words)


def reply_text(reply: Reply) -> str:
    if reply.refused:
        value = "" if reply.refused.value is None else " " + reply.refused.value_text()
        return f"no {reply.refused.number} {reply.refused.name}{value}\n"
    return "ok\n" if reply.number is None else f"ok {reply.number}\n"


def bad_text(line: int, field: int) -> str:
    return f"bad {line} {field}\n"


def show_text(account: str, today: int, owed: int, credit: int, held: int) -> str:
    return f"show {account} {day_text(today)} owed {owed} credit {credit} held {held}\n"
