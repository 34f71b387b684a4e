"""An input past the guards: its lines or records, and the request or the bad field of each."""

from dataclasses import dataclass, field

from companion.requests import (
    COLUMNS, KEYED_KINDS, KINDS, OF, WORDS, Request, form_of, is_left_empty,
    is_of_form, members_of,
)
from companion.trouble import counted

HEADER = ",".join(COLUMNS)
KEYED_HEADER = ",".join((*COLUMNS, OF))

# So much of a line is shown, and so many bytes a line may have.
SHOWN = 120
LONGEST = 512

# Numbers of posts by account and key.
Numbers = dict[tuple[str, str], int]


def bad_field_of_line(line: str) -> int | None:
    """The first field of a line that is missing, surplus or not of its form, else None."""
    if len(line.encode("utf-8", "replace")) > LONGEST:
        return 0
    word, *parts = line.split(" ")
    if word != "show" and word not in WORDS:
        return 1
    members = ["account"] if word == "show" else members_of(word)
    for place, member in enumerate(members):
        if place >= len(parts) or not is_of_form(form_of(member), parts[place]):
            return place + 2
    return len(members) + 2 if len(parts) > len(members) else None


def bad_column_of(record: list[str], keyed: bool) -> int | None:
    """The first column of a record that is missing, surplus or not of its form, else None."""
    columns = (*COLUMNS, OF) if keyed else COLUMNS
    kinds = KEYED_KINDS if keyed else KINDS
    kind = record[2] if len(record) > 2 else ""
    for place, column in enumerate(columns):
        if place >= len(record):
            return place + 1
        text = record[place]
        if column == "kind":
            good = text in kinds
        elif is_left_empty(kind, column):
            good = not text
        else:
            good = is_of_form("name" if column == OF else form_of(column), text)
        if not good:
            return place + 1
    return len(columns) + 1 if len(record) > len(columns) else None


def line_of_record(record: list[str], numbers: Numbers) -> str | None:
    """The request line of a well-formed record. None where no post has the key that it names."""
    fields = dict(zip((*COLUMNS, OF), record))
    word = fields["kind"]
    if word in KEYED_KINDS and word not in KINDS:
        number = numbers.get((fields["account"], fields[OF]))
        if number is None:
            return None
        fields["target"] = str(number)
    return " ".join([word, *(fields[member] for member in members_of(word))])


@dataclass
class Input:
    """What is to be sent: its bytes, billctl's word for it, and its lines or its records."""

    data: bytes
    word: str
    lines: list[str] = field(default_factory=list)
    records: list[list[str]] = field(default_factory=list)
    keyed: bool = False
    numbers: Numbers = field(default_factory=dict)
    made: list[str | int] = field(default_factory=list)

    def __len__(self) -> int:
        return len(self.lines) if self.word == "apply" else len(self.records)

    @property
    def is_plain(self) -> bool:
        """Whether this companion reads it as billctl does: ASCII, no quotes, no lone returns."""
        if not self.data.isascii():
            return False
        if self.word == "apply":
            return True
        return b'"' not in self.data and b"\r" not in self.data.replace(b"\r\n", b"\n")

    def count(self) -> str:
        return counted(len(self), "line" if self.word == "apply" else "record")

    def shown(self, place: int) -> str:
        """An item with its number as billctl counts it; records count from the header on."""
        if self.word == "apply":
            return f"line {place + 1}: {self.lines[place][:SHOWN]}"
        return f"record {place + 2}: {','.join(self.records[place])[:SHOWN]}"

    def word_of(self, place: int) -> str:
        """The word or the kind of an item."""
        if self.word == "apply":
            return self.lines[place].split(" ", 1)[0]
        record = self.records[place]
        return record[2] if len(record) > 2 else ""

    def items(self) -> list[str | int]:
        """Of each item its request line; or, where it is bad, the field."""
        if not self.made:
            if self.word == "apply":
                for line in self.lines:
                    bad = bad_field_of_line(line)
                    self.made.append(line if bad is None else bad)
            else:
                self.made = [self.item(record) for record in self.records]
        return self.made

    def item(self, record: list[str]) -> str | int:
        bad = bad_column_of(record, self.keyed)
        if bad is not None:
            return bad
        line = line_of_record(record, self.numbers)
        return len(COLUMNS) + 1 if line is None else line

    def good_lines(self) -> list[str]:
        return [item for item in self.items() if isinstance(item, str)]

    def requests(self) -> list[Request | None]:
        """The request of each item, None where it is bad or asks something."""
        found: list[Request | None] = []
        for item in self.items():
            word, *parts = item.split(" ") if isinstance(item, str) else ("", "")
            known = word in WORDS
            found.append(Request(word, dict(zip(members_of(word), parts))) if known else None)
        return found

    def merged(self, replies: list[str]) -> list[str]:
        """The replies to all items, from those to the good ones, up to the first one without."""
        first = 1 if self.word == "apply" else 2
        left = iter(replies)
        found = []
        for place, item in enumerate(self.items()):
            reply = next(left, None) if isinstance(item, str) else f"bad {place + first} {item}"
            if reply is None:
                break
            found.append(reply)
        return found
