"""Prints how many rows a ledger's file has, while a run may have it open.

    python3 -m tests.ops.count_rows FILE
"""

import sys

from ..support.rows import count_of

if __name__ == "__main__":
    print(count_of(sys.argv[1]))
