"""`examine`: what the ledger takes and an examiner would ask about, with what puts it right.

Each finding names its section of 12 CFR 1026. docs/RULES.md has the rules, and under "Where the
ledger's rules and the regulation part" what the operator does in their place.
"""

import csv
import os
import sys
from collections.abc import Iterator

from companion.examine_money import money_findings
from companion.examine_posts import post_findings
from companion.findings import Finding, View
from companion.history import read_history
from companion.home import LEDGER, require_home
from companion.opening import copied
from companion.report import SECTIONS
from companion.server import Server
from companion.state import read_state
from companion.texts import entries_of, known_day
from companion.trouble import DONE, FOUND, counted, say

COLUMNS = ("section", "account", "day", "what", "remedy")


def overdue(tasks: str, today: str) -> Iterator[Finding]:
    """The deadlines that are past."""
    for line in tasks.splitlines():
        by, account, kind, post = line.split(" ")
        if by < today:
            of = f" of post {post}" if post != "0" else ""
            yield Finding(SECTIONS[kind], account, known_day(by),
                          f"{kind}{of} was to be done by {by}, and isn't",
                          "do it at once, and enter it with the day on which it was done")


def findings(server: Server, path: str, wait: int) -> Iterator[Finding]:
    """All findings, account by account."""
    history, state = read_history(path, wait), read_state(path, wait)
    yield from overdue(server.tasks(), str(state.today))
    for name, account in history.accounts.items():
        entries = entries_of(server.entries(name))
        view = View(history, account, state.accounts[name], entries, server)
        yield from post_findings(view)
        yield from money_findings(view)


def examine(program: str, home: str, wait: int) -> int:
    """The word `examine`: a record for each finding. Status 1: there are some."""
    require_home(home)
    path = os.path.join(home, LEDGER)
    out = csv.writer(sys.stdout, lineterminator="\n")
    out.writerow(COLUMNS)
    number = 0
    with copied(path, wait) as copy, Server(program, copy) as server:
        for one in findings(server, path, wait):
            number += 1
            out.writerow((f"12 CFR 1026{one.section}", one.account, one.day, one.what, one.remedy))
    say(f"examine: {counted(number, 'finding')}; docs/RULES.md, \"Where the ledger's rules and the "
        "regulation part\", tells of each")
    return FOUND if number else DONE
