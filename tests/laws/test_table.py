"""The tables of laws in docs/ name the laws that are there, and all of card_rules."""

import re
import unittest

from tests.support.program import TOP

TITLE = "## Laws in the regulation's words"
FUNCTION = re.compile(r"^pub fn (\w+)", re.MULTILINE)
NAMED = re.compile(r"`(?:(card_\w+)::\w+::)?([a-z]+(?:_[a-z0-9]+)+)`")


def laws_of(crate: str) -> set[str]:
    """The public functions of a crate of laws."""
    return {name for path in (TOP / "crates" / crate / "src").glob("*.rt")
            for name in FUNCTION.findall(path.read_text(encoding="utf-8"))}


def rows(document: str) -> list[str]:
    """The rows of a document's table of laws."""
    text = (TOP / "docs" / document).read_text(encoding="utf-8")
    section = text.split(f"\n{TITLE}", 1)[1].split("\n## ", 1)[0]
    return [line for line in section.splitlines() if line.startswith("| ")][1:]


def named(row: str) -> list[tuple[str, str]]:
    """The laws of a row's second column, each with its crate; one without a crate is of the crate
    that was named before it in the row, or else of card_rules."""
    crate, found = "card_rules", []
    for of, name in NAMED.findall(row.split(" | ")[1]):
        crate = of or crate
        found.append((crate, name))
    return found


class Tables(unittest.TestCase):
    def hold(self, document: str, beside: set[str]) -> None:
        laws = {law for row in rows(document) for law in named(row)}
        missing = sorted(f"{crate}: {name}" for crate, name in laws
                         if name not in laws_of(crate))
        self.assertEqual(missing, [], f"{document} names laws that aren't there")
        own = {name for crate, name in laws if crate == "card_rules"}
        self.assertEqual(sorted(laws_of("card_rules") - own - beside), [],
                         f"{document} has no row for these laws of card_rules")

    def test_rules(self) -> None:
        """`runs_give_notice` is the condition that other laws have, and is said above them."""
        self.hold("RULES.md", {"runs_give_notice"})

    def test_proofs(self) -> None:
        self.hold("PROOFS.md", {"runs_give_notice"})


if __name__ == "__main__":
    unittest.main()
