"""The long form of the kills.

    python3 -m tests.durable [SEED [KILLS [LANES]]]

The seed is printed; the same seed makes the same kills, as far as the system allows. Without words
60 kills are made, one after the other, with a seed of its own.
"""

import sys
import unittest

from . import test_durable


def main() -> None:
    words = sys.argv[1:]
    if len(words) > 3 or not all(word.isdigit() for word in words):
        sys.exit((__doc__ or "").strip())
    for name, word in zip(("SEED", "KILLS", "LANES"), words):
        setattr(test_durable, name, int(word))
    unittest.main(module=test_durable, argv=[sys.argv[0]])


if __name__ == "__main__":
    main()
