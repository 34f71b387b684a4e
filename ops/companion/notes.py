"""What a post was, as a bank's sheet says it: the notes of pages, by account and key.

Notes are only added. A sheet may come again; another text for a post that has one is told.
"""

import csv
import io
import os

from companion.files import put_text
from companion.requests import is_of_form
from companion.trouble import GUARDED, OWN_FILES, Trouble

HEADER = ["account", "key", "text"]

# The text of a post, by account and key.
Notes = dict[tuple[str, str], str]


def note_of(parts: list[str]) -> str:
    """The parts of a note, as merchant and city, on one line."""
    return ", ".join(text for text in (" ".join(part.split()) for part in parts) if text)


def text_of(notes: Notes) -> str:
    out = io.StringIO()
    writer = csv.writer(out, lineterminator="\n")
    writer.writerow(HEADER)
    writer.writerows([account, key, text] for (account, key), text in notes.items())
    return out.getvalue()


def wrong(path: str, line: int, why: str) -> Trouble:
    return Trouble(f"{path}, line {line}: {why}; put it right, or name another file", GUARDED)


def read_notes(path: str) -> Notes:
    """The notes of a file, which has to be whole; none where it isn't there."""
    if not os.path.exists(path):
        return {}
    found: Notes = {}
    try:
        with open(path, encoding="utf-8-sig", newline="") as file:
            reader = csv.reader(file, strict=True)
            for record in reader:
                if reader.line_num == 1 or not record:
                    if record != HEADER and record:
                        raise wrong(path, 1, f"the columns have to be {','.join(HEADER)}")
                elif len(record) != len(HEADER) or not is_of_form("name", record[1]):
                    raise wrong(path, reader.line_num, "it is no account, key and text")
                else:
                    found[record[0], record[1]] = record[2]
    except (UnicodeDecodeError, csv.Error) as error:
        raise Trouble(f"{path}: it is no CSV in UTF-8: {error}", GUARDED) from error
    except OSError as error:
        raise Trouble(f"{path} can't be read: {error.strerror}", OWN_FILES) from error
    return found


def others_in(known: Notes, found: Notes) -> list[str]:
    """The posts that have another text already."""
    return [f"{account} {key}" for (account, key), text in found.items()
            if known.get((account, key), text) != text]


def add_notes(path: str, found: Notes) -> list[str]:
    """Adds notes to a file, which is made where it isn't there.

    Gives the posts that have another text already; that one stays.
    """
    known = read_notes(path)
    new = {which: text for which, text in found.items() if which not in known}
    if new or not os.path.exists(path):
        put_text(path, text_of({**known, **new}))
    return others_in(known, found)
