"""`seal`: the number of rows and a SHA-256 over all of them, and whether an older seal holds."""

import hashlib
from collections.abc import Iterable
from dataclasses import dataclass

from companion.opening import Row, open_rows
from companion.trouble import DONE, FOUND, say


@dataclass(frozen=True)
class Seal:
    """A number of rows and the hash over them, in hexadecimal."""

    rows: int
    hash: str

    def text(self) -> str:
        return f"{self.rows} {self.hash}"


def add_row(sum_of: "hashlib._Hash", seq: int, body: bytes) -> None:
    """A row goes in as its number in eight bytes, its length in four, and its bytes."""
    sum_of.update(seq.to_bytes(8, "big", signed=True) + len(body).to_bytes(4, "big") + body)


def seal_of(rows: Iterable[Row], at: int | None = None) -> tuple[Seal, Seal | None]:
    """The seal of all rows, and of the first `at` of them, None where there are fewer."""
    whole, found = seals_at(rows, [] if at is None else [at])
    return whole, None if at is None else found.get(at)


def seals_at(rows: Iterable[Row], wanted: Iterable[int]) -> tuple[Seal, dict[int, Seal]]:
    """The seal of all rows, and of as many first ones as are wanted where there are so many."""
    places = set(wanted)
    sum_of = hashlib.sha256()
    found = {0: Seal(0, sum_of.hexdigest())} if 0 in places else {}
    count = 0
    for seq, body in rows:
        add_row(sum_of, seq, body)
        count += 1
        if count in places:
            found[count] = Seal(count, sum_of.hexdigest())
    return Seal(count, sum_of.hexdigest()), found


def read_seal(path: str, wait: int = 0) -> Seal:
    with open_rows(path, wait) as rows:
        return seal_of(rows)[0]


def seal(path: str, since: Seal | None, wait: int) -> int:
    """Prints a file's seal. With an older one it says whether the first rows are still those."""
    with open_rows(path, wait) as rows:
        whole, early = seal_of(rows, since.rows if since else None)
    print(whole.text())
    if since is None:
        return DONE
    if early is None:
        say(f"seal: {path} has {whole.rows} rows, and the seal is of {since.rows}: "
            f"{since.rows - whole.rows} are lost")
        return FOUND
    if early.hash != since.hash.lower():
        say(f"seal: the first {since.rows} rows of {path} aren't those of the seal: "
            "a row was changed, lost or put in")
        return FOUND
    say(f"seal: the first {since.rows} rows of {path} are those of the seal; "
        f"{whole.rows - since.rows} came since")
    return DONE
