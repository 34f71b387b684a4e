"""All issued statements of all examples, of the demonstration and of 60 generated inputs as data.

    python3 -m tests.pages [--seeds N]

Each is held against the program and the schema, as the tests do for fewer.
"""

import argparse
import sys
import unittest

from audit.demo import demo_requests
from audit.generate import generate
from audit.lines import line_text
from tests.support.program import EXAMPLES

from .test_data import Numbers


class Whole(Numbers):
    """One ledger."""

    def __init__(self, name: str, lines: str) -> None:
        super().__init__("test_ledger")
        self.name, self.lines = name, lines

    def test_ledger(self) -> None:
        print(f"{self.name}: {self.hold(self.name, self.lines.encode())} statements", flush=True)


def main() -> int:
    parser = argparse.ArgumentParser(prog="python3 -m tests.pages", description=__doc__,
                                     formatter_class=argparse.RawDescriptionHelpFormatter)
    parser.add_argument("--seeds", type=int, default=60)
    given = parser.parse_args()
    ledgers = [(path.stem, path.read_text(encoding="ascii"))
               for path in sorted(EXAMPLES.glob("*.txt"))]
    ledgers.append(("the demonstration", "".join(f"{line_text(r)}\n"
                                                 for r in demo_requests(1, 20, 6))))
    ledgers += [(f"generated {seed}", "".join(f"{line}\n" for line in generate(seed, 150, 3)))
                for seed in range(1, given.seeds + 1)]
    suite = unittest.TestSuite(Whole(name, lines) for name, lines in ledgers)
    return 0 if unittest.TextTestRunner(verbosity=0).run(suite).wasSuccessful() else 1


if __name__ == "__main__":
    sys.exit(main())
