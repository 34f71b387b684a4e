"""A night's home of a test: its inbox, its nights, and its files."""

import os

from .common import Case, Told, ledger

OPENING = """feerow 2011-01-02 3000 4100
roll 2024-02-05
open anna o 2024-01-06 5 1999 2499 2199 2999 2500 100
open ben o 2024-01-06 5 1999 2499 2199 2999 2500 100
"""


class Home(Case):
    """A test with a night's home, in which `file` is the ledger."""

    def setUp(self) -> None:
        super().setUp()
        self.home = self.at("home")
        os.makedirs(os.path.join(self.home, "inbox"))
        self.file = os.path.join(self.home, "rows.db")

    def put(self, name: str, text: str) -> None:
        """A file in the inbox, or below the home where the name has a folder."""
        path = os.path.join(self.home, name if "/" in name else os.path.join("inbox", name))
        os.makedirs(os.path.dirname(path), exist_ok=True)
        with open(path, "w", encoding="ascii", newline="") as file:
            file.write(text)

    def night(self, day: object, *more: str) -> Told:
        return ledger("night", self.home, "--day", day, *more)

    def text(self, *names: str) -> str:
        with open(os.path.join(self.home, *names), encoding="utf-8") as file:
            return file.read()

    def names(self, *folder: str) -> list[str]:
        path = os.path.join(self.home, *folder)
        return sorted(os.listdir(path)) if os.path.isdir(path) else []

    def listing(self) -> dict[str, bytes]:
        """Every file below the home, with its bytes."""
        found = {}
        for folder, _, names in os.walk(self.home):
            for name in names:
                with open(os.path.join(folder, name), "rb") as file:
                    found[os.path.relpath(os.path.join(folder, name), self.home)] = file.read()
        return found
