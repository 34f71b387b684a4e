"""What a night's report says of money and deadlines, and how it ends."""

import os
from collections.abc import Callable
from datetime import date, timedelta

from companion import books
from companion.files import put_text, read_text
from companion.inputs import Input
from companion.late import Late, newly_late
from companion.pages import owed_at_closings
from companion.state import State
from companion.statements import TASKS, Asker
from companion.texts import entries_of, grouped, money
from companion.trouble import Progress, counted, say

Tell = Callable[[str], None]

# Tasks of so many days ahead stand in the report.
AHEAD = 7

# Which section sets the deadline of a task (12 CFR 1026), and where docs/RULES.md tells of it.
SECTIONS = {
    "ACK": ".13(c)(1)",
    "RESOLVE": ".13(c)(2)",
    "REFUND": ".11(a)(2)",
    "CREDIT": ".11(a)(3)",
    "REVIEW": ".59(c)",
    "LOWER": ".59(a)(2)",
}


def accepted_line(given: Input, replies: list[str]) -> str:
    """What was accepted of an input: how many of each kind, and their sums."""
    counts: dict[str, tuple[int, int]] = {}
    for request, reply in zip(given.requests(), replies):
        if request is None or not reply.startswith("ok"):
            continue
        number, cents = counts.get(request.word, (0, 0))
        counts[request.word] = number + 1, cents + int(request.fields.get("cents", 0))
    parts = [counted(number, word) + (f" {grouped(cents)}" if cents else "")
             for word, (number, cents) in counts.items()]
    return f"accepted: {', '.join(parts)}" if parts else ""


def overdue_of(tasks: list[str], day: date) -> list[str]:
    """The tasks whose last day is past, each with its section."""
    found = []
    for line in tasks:
        by, account, kind, post = line.split(" ")
        if by < day.isoformat():
            late = (day - date.fromisoformat(by)).days
            of = f" of post {post}" if post != "0" else ""
            found.append(f"{account} {kind}{of}: by {by}, {counted(late, 'day')} ago "
                         f"(12 CFR 1026{SECTIONS[kind]})")
    return found


def tell_tasks(tasks: list[str], day: date, tell: Tell) -> None:
    """How many tasks are open, which are overdue, and those of the next days."""
    late = overdue_of(tasks, day)
    until = (day + timedelta(days=AHEAD)).isoformat()
    soon = [line for line in tasks if day.isoformat() <= line.split(" ", 1)[0] <= until]
    if late:
        tell(f"overdue: {len(late)}")
        for text in late:
            tell(f"  {text}")
    tell(f"tasks: {len(tasks)} open, {len(soon)} to be done by {until}")
    for line in soon:
        tell(f"  {line}")


def closed_accounts(state: State, asker: Asker, close: books.Close) -> list[Late]:
    """Adds up the entries of all accounts. Gives the statements that are newly late."""
    found: list[Late] = []
    progress = Progress("accounts", len(state.accounts))
    for place, account in enumerate(state.accounts.values()):
        entries = entries_of(asker.entries(account.name))
        close.add(account.name, entries)
        close.at_closings.update(owed_at_closings(account, close.day, entries))
        found += newly_late(asker, account, entries, close.since, state.today)
        progress.at(place + 1)
    return found


def tell_money(home: str, day: date, state: State, asker: Asker, returned: list[str],
               tell: Tell) -> books.Close:
    """What posted since the last close, who is newly late, what came back, and the ten lines."""
    close = books.begun_close(home, day)
    newly = closed_accounts(state, asker, close)
    tell(books.posted_line(close))
    for what, word in enumerate(("late fee", "returned-payment fee")):
        for name, cents in close.new(what).items():
            tell(f"  {word} {name} {money(cents)}")
    tell(f"newly late: {len(newly)}")
    for one in newly:
        tell(f"  {one.account} statement {one.cycle}, due {one.due}: {money(one.missing)} of "
             f"{money(one.asked)} missing")
    tell(f"payments returned: {len(returned)}")
    for text in returned:
        tell(f"  {text}")
    path, accounts = books.put_close(home, close)
    tell(f"trial up to {day}, in {path}; by account in {accounts}:")
    for line in books.trial_lines(close):
        tell(f"  {line}")
    return close


def end_report(part: str, to: str, last: list[str], statements: str, day: date) -> None:
    """Ends the report with the seal, puts what is overdue first, and gives it its name."""
    lines = read_text(part).splitlines()
    tasks = read_text(os.path.join(statements, TASKS)).splitlines()
    late = overdue_of(tasks, day)
    front = [f"overdue: {len(late)}"] + [f"  {text}" for text in late] if late else []
    rest = lines if not front else [line for line in lines if line not in front]
    put_text(part, "".join(line + "\n" for line in front + rest + last))
    os.replace(part, to)
    for line in last:
        say(line)
    print(to)
