"""All closed cycles of all examples, of the demonstration and of 60 generated inputs.

    python3 -m tests.explain [--seeds N]
    python3 -m tests.explain --texts

Each is explained as issued and as recomputed, held against the program and checked. --texts writes
the texts in examples/explained anew instead; read what changed in them.
"""

import argparse
import sys
import unittest

from tests.explain.common import ExplainCase
from tests.explain.test_numbers import demonstration, generated
from tests.explain.test_texts import FOLDER, TEXTS, Texts
from tests.support.program import EXAMPLES


class Whole(ExplainCase):
    """One ledger."""

    def __init__(self, name: str, lines: str | bytes) -> None:
        super().__init__("test_sound")
        self.name, self.lines = name, lines

    def test_sound(self) -> None:
        print(f"{self.name}: {self.sound(self.lines, whole=True)} numbers", flush=True)


def written() -> int:
    """Writes the texts in examples/explained."""
    texts = Texts()
    texts.setUp()
    for name, (lines, words) in TEXTS.items():
        found = texts.explained(texts.ledger(texts.lines(lines)), *words.split())
        (FOLDER / f"{name}.explained").write_text(found, encoding="utf-8")
    texts.doCleanups()
    return 0


def main() -> int:
    parser = argparse.ArgumentParser(prog="python3 -m tests.explain", description=__doc__,
                                     formatter_class=argparse.RawDescriptionHelpFormatter)
    parser.add_argument("--seeds", type=int, default=60)
    parser.add_argument("--texts", action="store_true")
    given = parser.parse_args()
    if given.texts:
        return written()
    ledgers: list[tuple[str, str | bytes]] = [(f"generated {seed}", generated(seed))
                                              for seed in range(1, given.seeds + 1)]
    ledgers += [(path.stem, path.read_bytes()) for path in sorted(EXAMPLES.glob("*.txt"))]
    ledgers.append(("the demonstration", demonstration(20, 6)))
    suite = unittest.TestSuite(Whole(name, lines) for name, lines in ledgers)
    return 0 if unittest.TextTestRunner(verbosity=0).run(suite).wasSuccessful() else 1


if __name__ == "__main__":
    sys.exit(main())
