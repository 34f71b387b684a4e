"""Holds what the ledger prints of a history against laws of the regulation (12 CFR 1026).

    python3 -m tests.laws.laws [--least N] FOLDER ...
            checks what is in the folders, and says how much each check looked at
    python3 -m tests.laws.laws --print FOLDER < LINES
            has the program carry out request lines, and prints all that the checks read into the
            folder

papers.py says what a folder has.  The checks read nothing else; they are written from the words of
the regulation and share nothing with the program or with a model of its rules.  Each says in its
docstring what it asks.

An amendment, a returned payment or a dispute is read as it counts today, since all that is printed
is of today.  What can't be said from these papers is passed over and counted as such: the excess of
a payment in a cycle that isn't closed, or in which rates change; the interest of a cycle in which
rates change, except by the index.  Status 0: each law holds, and each check looked at N cases or
more.  Status 1: the lines say which one doesn't.
"""

import argparse
import collections
import sys
from collections.abc import Callable, Iterable, Mapping
from pathlib import Path

from .asked import check_asked
from .credited import check_credited, check_whole
from .excess import check_excess
from .fees import check_late_fees, check_tiers
from .interest import check_grace, check_own_days
from .papers import Account, Broken, Papers, read_papers
from .printing import print_papers
from .raises import check_index, check_raises, check_sixty_days

Count = collections.Counter[str]
Check = Callable[[Account, Papers, Count], None]

CHECKS: dict[str, Check] = {
    "late-fees": check_late_fees, "tiers": check_tiers, "excess": check_excess,
    "credited": check_credited, "whole": check_whole, "own-days": check_own_days,
    "grace": check_grace, "asked": check_asked, "index": check_index, "raises": check_raises,
    "sixty-days": check_sixty_days,
}

COUNTED = {
    "late-fees": "late fees", "tiers": "penalty fees", "tiers, repeated": "above the first amount",
    "excess": "payments above the minimum over several balances",
    "excess, deferred": "with a deferred one in its last two cycles",
    "excess, passed over": "more passed over", "credited": "payments credited",
    "credited, mail": "mail for a closed due date",
    "credited, exception": "pairs out of order by it", "whole": "payments entered",
    "whole, credits": "merchants' credits", "own-days": "amounts of interest",
    "own-days, purchase": "of purchases", "own-days, cash": "of cash",
    "own-days, transfer": "of transfers", "own-days, promo": "of promotional plans",
    "own-days, deferred": "of deferred plans", "own-days, passed over": "more passed over",
    "grace": "purchases without a due statement before", "asked": "minimum payments",
    "asked, disputed": "with a dispute",
    "index": "rates that follow the index", "index, raised": "raised by it",
    "raises": "other rates", "sixty-days": "penalty rates",
}


def check(folder: Path, count: Count) -> list[str]:
    """The laws that don't hold, with what was found; what each check looked at is added to the
    count."""
    papers, broken = read_papers(folder), []
    for law in CHECKS.values():
        try:
            for account in papers.accounts.values():
                law(account, papers, count)
        except Broken as found:
            broken.append(f"{found} ({folder.name})")
    return broken


def check_all(folders: Iterable[Path], least: Mapping[str, int]) -> tuple[list[str], str]:
    """What is wrong in the folders, or was looked at too seldom; and the counts as a line."""
    count: Count = collections.Counter()
    broken = [line for folder in folders for line in check(folder, count)]
    broken += [f"{name}: {count[name]} were looked at, wanted {wanted}"
               for name, wanted in least.items() if count[name] < wanted]
    return broken, ", ".join(f"{count[name]} {text}" for name, text in COUNTED.items())


def main() -> int:
    parser = argparse.ArgumentParser(prog="python3 -m tests.laws.laws")
    parser.add_argument("--print", action="store_true",
                        help="carry out the lines of standard input, and print into the folder")
    parser.add_argument("--least", metavar="N", type=int, default=0,
                        help="how many cases each check has to find")
    parser.add_argument("folders", metavar="FOLDER", type=Path, nargs="+")
    given = parser.parse_args()
    if given.print:
        print_papers(given.folders[0], sys.stdin.buffer.read())
        return 0
    broken, counts = check_all(given.folders, dict.fromkeys(CHECKS, given.least))
    print("\n".join([*broken, counts]))
    return 1 if broken else 0


if __name__ == "__main__":
    sys.exit(main())
