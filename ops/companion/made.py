"""What a night makes by its `night.toml`: statements as data and as pages, and their notes."""

import csv
import os
import re
from dataclasses import dataclass, field

from companion.files import names_in
from companion.model import ask_model
from companion.notes import Notes, add_notes
from companion.opening import require_openable
from companion.pages import Files, Wanted, Which, words_of
from companion.run import AFTER_SECONDS
from companion.texts import grouped
from companion.trouble import OWN_FILES, Trouble, counted, say
from companion.under_way import Night

MANIFEST = re.compile(r"manifest(?:-([0-9]+))?\.csv")
PROGRESS = re.compile(r"statements: [0-9]+ of [0-9]+$")
REISSUED = "reissued"
SHOWN = 5


@dataclass
class Manifest:
    """What a manifest says: its statements with their new balances, and its sums."""

    name: str = ""
    balances: dict[Which, int] = field(default_factory=dict)
    total: list[str] = field(default_factory=list)

    @property
    def sums(self) -> tuple[int, int, int]:
        """Files, bytes, and minimum payments."""
        return int(self.total[2]), int(self.total[3]), int(self.total[6])


def last_manifest(folder: str) -> Manifest:
    """The manifest of the last call that made pages in a folder."""
    found = {int(match[1] or 1): name for name in names_in(folder)
             if (match := MANIFEST.fullmatch(name))}
    if not found:
        raise Trouble(f"{folder} has no manifest", OWN_FILES)
    manifest = Manifest(found[max(found)])
    with open(os.path.join(folder, manifest.name), encoding="ascii", newline="") as file:
        for record in list(csv.reader(file))[1:]:
            if record[0] == "total" and record[2].isdigit():  # of an account it is a file's name
                manifest.total = record
            else:
                manifest.balances[record[0], int(record[1])] = int(record[5])
    return manifest


def add_notes_of(night: Night, notes: Notes) -> None:
    """Adds the notes of a sheet to the file that `night.toml` names."""
    wanted = night.asked.pages
    if wanted is None or wanted.files.notes is None or not notes:
        return
    others = add_notes(wanted.files.notes, notes)
    night.tell(f"  {counted(len(notes), 'note')} in "
               f"{os.path.relpath(wanted.files.notes, night.home)}")
    if others:
        night.found = True
        night.tell(f"  {len(others)} of them have another text there, which stays: "
                   f"{', '.join(others[:SHOWN])}")


def as_there(wanted: Wanted) -> Wanted:
    """Without notes where no sheet gave any yet."""
    notes = wanted.files.notes
    if notes is None or os.path.exists(notes):
        return wanted
    return Wanted(wanted.forms, Files(wanted.files.issuer, wanted.files.names))


def make_pages(night: Night, at_closings: dict[Which, int]) -> None:
    """Writes the statements of the night in the forms that are wanted, and tells their sums."""
    if night.asked.pages is None:
        return
    folder, said = night.path("statements", str(night.day)), list[str]()
    if night.asked.reissue and any(MANIFEST.fullmatch(name) for name in names_in(folder)):
        folder = os.path.join(folder, REISSUED)
    require_openable(night.ledger, AFTER_SECONDS)

    def tell(line: str) -> None:
        say(line)
        if not PROGRESS.match(line):
            said.append(line.removeprefix("statements: "))

    status = ask_model("statements", words_of(night.asked.program, night.ledger, night.day, folder,
                                              as_there(night.asked.pages)), tell)
    if status:
        raise Trouble(f"the pages of {night.day} aren't whole: {said[-1] if said else status}. The "
                      "rows, the bills and the backup stand; put it right, and call again", status)
    tell_pages(night, folder, said[:-1], at_closings)


def tell_pages(night: Night, folder: str, lacking: list[str],
               at_closings: dict[Which, int]) -> None:
    """How many pages there are, and that their balances are those of the program's entries."""
    assert night.asked.pages is not None
    manifest = last_manifest(folder)
    files, size, minimum = manifest.sums
    path = os.path.relpath(os.path.join(folder, manifest.name), night.home)
    night.tell(f"pages: {counted(len(manifest.balances), 'statement')} as "
               f"{', '.join(night.asked.pages.forms)}: {counted(files, 'file')}, {size:,} bytes; "
               f"{path}")
    for line in lacking:
        night.tell(f"  {line}")
    whole = sum(manifest.balances.values())
    night.tell(f"  new balances {grouped(whole)}, minimum payments {grouped(minimum)}")
    held = {which: cents for which, cents in at_closings.items() if which in manifest.balances}
    ours = sum(manifest.balances[which] for which in held)
    theirs = sum(held.values())
    since = len(manifest.balances) - len(held)
    left = f"; of {since} with posts since their bills it may differ" if since else ""
    night.tell(f"  change of trial up to the closings of {counted(len(held), 'statement')}: "
               f"{grouped(theirs)}, {'the same' if ours == theirs else 'not the same'}{left}")
    parted = [f"{account} {cycle}" for (account, cycle), cents in held.items()
              if manifest.balances[account, cycle] != cents]
    if parted:
        night.found = True
        night.tell(f"  another balance in the manifest than by trial: {', '.join(parted[:SHOWN])}")
