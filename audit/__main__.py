"""Recomputes a ledger's file, and compares all that the program tells of it.

Every account is recomputed from its opening day by a model that is written
apart from the program (README.md).  Compared are each account's `show`, its
entries, its open tasks, and the statements of its cycles as issued and as
recomputed; and, where they are given, statements as they were sent.  The file
is copied and never written.

Standard error has the progress, standard output what was compared, or the
first difference with both sides.  Status 0: all is the same.  1: something
differs.  2: nothing can be compared, and why.

`python3 -m audit explain --help` says how each number of a cycle is explained, and
`python3 -m audit statements --help` how the statements of a day become files.
"""

import argparse
import shutil
import sys
from pathlib import Path

from .check import Different, check
from .explaining.command import main as explain
from .ledger_file import Unreadable
from .program import Failed
from .statements.command import main as statements

BUILT = Path(__file__).resolve().parent.parent / "crates" / "billctl" / "out" / "billctl"


def main() -> int:
    if sys.argv[1:2] == ["explain"]:
        return explain(sys.argv[2:])
    if sys.argv[1:2] == ["statements"]:
        return statements(sys.argv[2:])
    parser = argparse.ArgumentParser(prog="python3 -m audit", description=__doc__,
                                     formatter_class=argparse.RawDescriptionHelpFormatter)
    parser.add_argument("file", metavar="FILE", help="the ledger's SQLite file")
    parser.add_argument("--program", metavar="billctl",
                        help="the program; otherwise the one that is built in this repository, or "
                             "the one on the PATH")
    parser.add_argument("--sent", metavar="PATH", nargs="+", default=[],
                        help="files or folders with statements as they were printed when they were "
                             "issued: a kept row that was changed since can't change these")
    parser.add_argument("--quiet", action="store_true", help="no progress")
    given = parser.parse_args()
    path = given.program or (str(BUILT) if BUILT.exists() else shutil.which("billctl"))
    try:
        if path is None:
            raise Failed("there is no program: build it, or name one with --program")
        print(f"same: {check(given.file, path, given.sent, given.quiet)}")
    except Different as different:
        print(f"different: {different}")
        return 1
    except (Failed, Unreadable) as why:
        print(f"audit: {why}", file=sys.stderr)
        return 2
    return 0


if __name__ == "__main__":
    sys.exit(main())
