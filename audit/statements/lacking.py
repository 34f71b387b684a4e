"""Names and notes of the issuer in a statement, and what lacks of them."""

from .issued import Data
from .issuer import Issuer

SHOWN = 5


def with_names(data: Data, issuer: Issuer) -> Data:
    """The data with the cardholder's name and the notes of its posts."""
    account = data["account"]
    to = issuer.names.get(account)
    found = dict(data, addressee={"name": to.name, "lines": to.lines} if to else None)
    found["transactions"] = [dict(one, note=issuer.notes.get((account, one["key"] or "")))
                             for one in data["transactions"]]
    found["corrections"] = [dict(one, note=note_of_correction(account, one, issuer))
                            for one in data["corrections"]]
    return found


def note_of_correction(account: str, one: Data, issuer: Issuer) -> str | None:
    """The note of a late post itself, or of the post that it corrects."""
    own = issuer.notes.get((account, one["key"]))
    return own if own is not None else issuer.notes.get((account, one["target_key"] or ""))


class Lacking:
    """Counts what a page shows in brackets."""

    def __init__(self) -> None:
        self.names: list[str] = []
        self.notes = 0

    def take(self, data: Data) -> None:
        if data["addressee"] is None and data["account"] not in self.names[-1:]:
            self.names.append(data["account"])
        self.notes += sum(one["note"] is None and one["kind"] == "CHARGE"
                          and one["group"] == "purchases" for one in data["transactions"])
        self.notes += sum(one["note"] is None and one["kind"] == "charge"
                          for one in data["corrections"])

    def lines(self, issuer: Issuer) -> list[str]:
        """What the pages show in brackets, in words."""
        found = []
        if issuer.missing():
            found.append("no --issuer: the pages show these texts in brackets: "
                         + ", ".join(issuer.missing()))
        if self.names:
            more = f" and {len(self.names) - SHOWN} more" if len(self.names) > SHOWN else ""
            found.append(f"no name in --names, [name] on the page: "
                         f"{', '.join(self.names[:SHOWN])}{more}")
        if self.notes:
            purchases = "1 purchase" if self.notes == 1 else f"{self.notes} purchases"
            found.append(f"no note in --notes, [merchant] on the page: {purchases}")
        return found
