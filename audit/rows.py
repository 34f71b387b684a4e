"""Kept rows: the spelling of a request in format 1 and in format 2."""

from collections.abc import Sequence

from .days import FIRST_DAY, LAST_REQUEST_DAY
from .lines import read_name
from .product import ROW_FORMAT
from .words import (
    CATEGORIES, CHANNELS, FINDINGS, NUMBER_LIMIT, PLAN_KINDS, WORDS, Place, Request, Value,
    request_of,
)

_WORD_LISTS = {"category": CATEGORIES, "channel": CHANNELS, "plan": PLAN_KINDS,
               "finding": FINDINGS}
_WORD_OF_CODE = {code: word for word, (code, _) in WORDS.items()}
_FORMAT_1_CODES = range(1, 21)


def _number_bytes(n: int, row_format: int) -> bytes:
    """Format 1: eight bytes.  Format 2: a length of 0 to 5, then that many without a leading 0."""
    if row_format == 1:
        return n.to_bytes(8, "big")
    length = (n.bit_length() + 7) // 8
    return bytes([length]) + n.to_bytes(length, "big")


def _day_bytes(day: int, row_format: int) -> bytes:
    """Format 1: four bytes since 1970-01-01.  Format 2: two bytes since 2011-01-01."""
    return day.to_bytes(4, "big") if row_format == 1 else (day - FIRST_DAY).to_bytes(2, "big")


def encode(r: Request, row_format: int = ROW_FORMAT) -> bytes:
    """The spelling of a request; format 1 spells the codes 1 to 20 alone."""
    code, fields = WORDS[r.word]
    out = bytes([row_format, code])
    for name, form in fields:
        value = getattr(r, name)
        if form == "name":
            out += bytes([len(value)]) + value.encode("ascii")
        elif form == "day":
            out += _day_bytes(value, row_format)
        elif form == "number":
            out += _number_bytes(value, row_format)
        elif form == "place":
            if value.plan is None:
                out += bytes([CATEGORIES.index(value.category)])
            else:
                out += bytes([3]) + _number_bytes(value.plan, row_format)
        else:
            out += bytes([_WORD_LISTS[form].index(value)])
    return out


class _NoSpelling(Exception):
    pass


class _Reader:
    def __init__(self, data: bytes, row_format: int):
        self.data, self.format, self.place = data, row_format, 2

    def take(self, n: int) -> bytes:
        piece = self.data[self.place:self.place + n]
        if len(piece) < n:
            raise _NoSpelling
        self.place += n
        return piece

    def byte(self) -> int:
        return self.take(1)[0]

    def number(self) -> int:
        if self.format == 1:
            n = int.from_bytes(self.take(8), "big")
        else:
            length = self.byte()
            if length > 5:
                raise _NoSpelling
            piece = self.take(length)
            if piece[:1] == b"\0":
                raise _NoSpelling
            n = int.from_bytes(piece, "big")
        if n > NUMBER_LIMIT:
            raise _NoSpelling
        return n

    def day(self) -> int:
        if self.format == 1:
            day = int.from_bytes(self.take(4), "big")
        else:
            day = FIRST_DAY + int.from_bytes(self.take(2), "big")
        if not FIRST_DAY <= day <= LAST_REQUEST_DAY:
            raise _NoSpelling
        return day

    def name(self) -> str:
        name = read_name(self.take(self.byte()))
        if name is None:
            raise _NoSpelling
        return name

    def tag(self, words: Sequence[str]) -> str:
        place = self.byte()
        if place >= len(words):
            raise _NoSpelling
        return words[place]

    def field(self, form: str) -> Value:
        if form == "name":
            return self.name()
        if form == "day":
            return self.day()
        if form == "number":
            return self.number()
        if form == "place":
            tag = self.byte()
            if tag > 3:
                raise _NoSpelling
            return Place(None, self.number()) if tag == 3 else Place(CATEGORIES[tag])
        return self.tag(_WORD_LISTS[form])


def decode(body: bytes) -> Request | None:
    """The request of a spelling in one of the formats, None where the bytes are none."""
    if not isinstance(body, bytes) or len(body) < 2:
        return None
    if body[0] not in (1, 2) or body[1] not in _WORD_OF_CODE:
        return None
    if body[0] == 1 and body[1] not in _FORMAT_1_CODES:
        return None
    word = _WORD_OF_CODE[body[1]]
    reader = _Reader(body, body[0])
    try:
        values = {name: reader.field(form) for name, form in WORDS[word][1]}
    except _NoSpelling:
        return None
    return request_of(word, values) if reader.place == len(body) else None
