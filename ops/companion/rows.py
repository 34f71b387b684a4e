"""Kept rows: what a row's bytes say, in format 1 and in format 2."""

from companion.days import EPOCH, FIRST_DAY, day_at
from companion.requests import (
    CATEGORIES, CHOICES, CODES, NAME, NUMBER_LIMIT, Request, form_of, members_of,
)

# Format 1 has the codes from `roll` to `bill` alone.
LAST_OF_FORMAT_1 = 20
PLAN = 3

# The format of new rows.
FORMAT = 2


class NoSpelling(Exception):
    """The bytes are no spelling of a request; the text says why."""


class Bytes:
    """The bytes of a row behind its code, read from the front."""

    def __init__(self, body: bytes) -> None:
        self.format = body[0]
        self.rest = body[2:]

    def take(self, count: int) -> bytes:
        if len(self.rest) < count:
            raise NoSpelling("its bytes end inside a field")
        piece, self.rest = self.rest[:count], self.rest[count:]
        return piece

    def byte(self) -> int:
        return self.take(1)[0]

    def number(self) -> str:
        if self.format == 1:
            number = int.from_bytes(self.take(8), "big")
        else:
            length = self.byte()
            piece = self.take(min(length, 5))
            if length > 5 or piece[:1] == b"\0":
                raise NoSpelling("a number isn't spelled in the shortest way")
            number = int.from_bytes(piece, "big")
        if number > NUMBER_LIMIT:
            raise NoSpelling("a number has more than 12 digits")
        return str(number)

    def day(self) -> str:
        if self.format == 1:
            day = day_at(int.from_bytes(self.take(4), "big"))
        else:
            day = day_at(int.from_bytes(self.take(2), "big") + (FIRST_DAY - EPOCH).days)
        if day is None:
            raise NoSpelling("a day lies outside 2011-01-01 to 2099-12-31")
        return day.isoformat()

    def name(self) -> str:
        text = self.take(self.byte()).decode("latin-1")
        if NAME.fullmatch(text) is None:
            raise NoSpelling("a name isn't of its form")
        return text

    def choice(self, words: tuple[str, ...]) -> str:
        place = self.byte()
        if place >= len(words):
            raise NoSpelling("a choice is none")
        return words[place]

    def place(self) -> str:
        place = self.byte()
        if place == PLAN:
            return "plan:" + self.number()
        if place > PLAN:
            raise NoSpelling("a place is none")
        return CATEGORIES[place]

    def field(self, form: str) -> str:
        if form in CHOICES:
            return self.choice(CHOICES[form])
        readers = {"name": self.name, "day": self.day, "number": self.number, "place": self.place}
        return readers[form]()


def account_and_key(body: bytes) -> tuple[str, str]:
    """The account and the key of a post's row, without a look at the fields behind them.

    Raises IndexError where it is too short.
    """
    end = 3 + body[2]
    return body[3:end].decode("latin-1"), body[end + 1:end + 1 + body[end]].decode("latin-1")


def decode(body: bytes) -> Request:
    """The request that a row's bytes spell. Raises NoSpelling where they are none."""
    if len(body) < 2:
        raise NoSpelling("it has fewer than two bytes")
    if body[0] not in (1, 2):
        raise NoSpelling(f"its format is {body[0]}")
    if body[1] not in CODES or (body[0] == 1 and body[1] > LAST_OF_FORMAT_1):
        raise NoSpelling(f"its code {body[1]} is no request's")
    word = CODES[body[1]]
    bytes_of = Bytes(body)
    fields = {member: bytes_of.field(form_of(member)) for member in members_of(word)}
    if bytes_of.rest:
        raise NoSpelling("bytes stand behind its last field")
    return Request(word, fields)
