"""The files of a call and their manifest. What is there already stays, if it is the same."""

import hashlib
import os
from pathlib import Path

from .issued import Data

MANIFEST = "manifest.csv"
TOTAL = "total"
HEADER = "account,cycle,file,bytes,sha256,new_balance,minimum_payment,due_date"


class Taken(Exception):
    """A file is there with other bytes."""


def put(path: Path, data: bytes) -> bool:
    """Writes a file whole, or leaves the same one as it is. Says whether it is new."""
    if path.exists():
        if path.read_bytes() == data:
            return False
        raise Taken(f"{path} is there already with other bytes: it was made of rows, names or "
                    "texts that were changed since, or by another version. Keep it; another "
                    "folder takes the new one")
    part = path.with_name(f".{path.name}.part")
    with open(part, "wb") as file:
        file.write(data)
        file.flush()
        os.fsync(file.fileno())
    os.replace(part, path)
    return True


def records_in(path: Path) -> set[str]:
    """The records of a manifest that is there, without its header and its sums."""
    lines = path.read_text(encoding="utf-8", errors="replace").splitlines()[1:]
    return {line for line in lines if not line.startswith(f"{TOTAL},")}


def manifest_path(folder: Path, text: str) -> Path:
    """Where a manifest goes: behind those that are there with fewer of the same records.

    Statements that a later call of the same day issued make a second one, manifest-2.csv.
    """
    path, count = folder / MANIFEST, 1
    while path.exists() and path.read_text(encoding="utf-8", errors="replace") != text:
        if not records_in(path) < set(text.splitlines()):
            break
        count += 1
        path = folder / f"manifest-{count}.csv"
    return path


def sync(folder: Path) -> None:
    """The names of the files are on the disk too."""
    channel = os.open(folder, os.O_RDONLY)
    try:
        os.fsync(channel)
    finally:
        os.close(channel)


class Manifest:
    """A record a file, and at its end the sums by which a transfer is checked.

    The last record has the word `total`, the number of statements, of files and of bytes, and the
    sums over the statements.
    """

    def __init__(self) -> None:
        self.records: list[str] = []
        self.statements = self.bytes = self.balances = self.minimums = 0

    def statement(self, data: Data) -> None:
        self.statements += 1
        self.balances += data["summary"]["new_balance"]
        self.minimums += data["payment"]["minimum"]

    def file(self, data: Data, name: str, content: bytes) -> None:
        self.bytes += len(content)
        self.records.append(
            f"{data['account']},{data['cycle']},{name},{len(content)},"
            f"{hashlib.sha256(content).hexdigest()},{data['summary']['new_balance']},"
            f"{data['payment']['minimum']},{data['payment']['due'] or ''}")

    def text(self) -> str:
        last = (f"{TOTAL},{self.statements},{len(self.records)},{self.bytes},,{self.balances},"
                f"{self.minimums},")
        return "".join(f"{line}\n" for line in (HEADER, *self.records, last))
