"""`run`, the safe way in: guards first, then apply or import, and each refusal with its reason."""

import os
import sys
from collections.abc import Sequence
from dataclasses import dataclass, field
from datetime import date

from companion import dated, guards, reasons
from companion.days import day_of
from companion.history import numbers_in
from companion.inputs import Input
from companion.opening import (
    cause_of_name, log_of, open_rows, require_openable, warn_of_room,
)
from companion.program import ask_of
from companion.requests import bad_line, bad_record
from companion.sessions import feed_input
from companion.state import State, read_on, read_state
from companion.trouble import CANNOT_OPEN, DONE, FOUND, OWN_FILES, Trouble, counted, say

# How long a look behind a run waits for another process that took the file.
AFTER_SECONDS = 5


@dataclass
class Sent:
    """What came of an input: billctl's status, its replies, the new rows, and the refusals."""

    status: int
    replies: list[str]
    new: int = 0
    repeats: list[str] = field(default_factory=list)
    refused: list[str] = field(default_factory=list)
    unanswered: str = ""


@dataclass(frozen=True)
class Meant:
    """What the operator says is meant: far rolls, late records, and notices that are dated back."""

    far: bool = False
    late: bool = False
    dated_back: bool = False


def state_before(path: str, new: bool, wait: int) -> State:
    """What the file gives before anything is sent.

    Refuses a file that isn't there without `new`, and one that is with it.
    """
    cause = cause_of_name(path)
    if cause:
        raise Trouble(cause, CANNOT_OPEN)
    if not os.path.lexists(path):
        if not new:
            raise guards.guard(f"{path} isn't there; --new begins a new, empty ledger under "
                               "this name")
        if os.path.lexists(log_of(path)):
            raise guards.guard(f"{log_of(path)} is there without its file; a log and a file of "
                               "another time mustn't meet: bring its file back beside it, or "
                               "begin the ledger under another name")
        return State()
    if new:
        raise guards.guard(f"{path} is there already; leave --new out")
    require_openable(path, wait)
    return read_state(path, wait)


def require_meant(given: Input, state: State, path: str, meant: Meant) -> None:
    """Refuses records of billed cycles and notices dated back, unless they are meant or repeats.

    Finds the numbers of the posts that records name by their keys, too.
    """
    late = [] if meant.late else dated.late_in(given, state)
    back = [] if meant.dated_back else dated.back_in(given, state.today)
    wanted = dated.wanted_keys(given, late + back)
    if not wanted or not os.path.lexists(path):
        return
    with open_rows(path, AFTER_SECONDS) as rows:
        given.numbers.update(numbers_in(rows, wanted))
    given.made.clear()
    for texts, refusal in ((dated.named(given, late, given.numbers), dated.late_refusal),
                           (dated.named(given, back, given.numbers), dated.back_refusal)):
        if texts:
            raise guards.guard(refusal(texts))


def is_repeat(reply: str, item: str, state: State, rolled_to: date | None) -> bool:
    """Whether a refusal only says that a shared request was carried out before.

    It is a roll to today, or a row that is kept. A roll to an earlier day is one only where the
    input goes on to today.
    """
    number = reasons.number_of(reply)
    if number == reasons.ROLL_BACK:
        return rolled_to == state.today and item in state.shared
    return number == reasons.PAST_ROW and item in state.shared


def last_roll(items: Sequence[str]) -> date | None:
    """The greatest day that request lines roll to, else None."""
    days = [day_of(line[5:]) for line in items if line.startswith("roll ")]
    return max((day for day in days if day), default=None)


def why(given: Input, place: int, reply: str) -> str:
    """In words, why an item was refused."""
    if reply.startswith("no "):
        return reasons.reason_of(reply, given.word_of(place))
    bad = int(reply.split(" ")[2])
    if given.word == "apply":
        return bad_line(given.lines[place], bad)
    return bad_record(given.records[place], bad, given.keyed)


def told(sent: Sent, given: Input, state: State) -> None:
    """Sorts the replies that are no `ok` and no `show` into repeats and refusals, in words."""
    rolled_to = last_roll(given.lines)
    for place, reply in enumerate(sent.replies):
        if place >= len(given) or reply.split(" ", 1)[0] not in ("no", "bad"):
            continue
        is_line = given.word == "apply"
        if is_line and is_repeat(reply, given.lines[place], state, rolled_to):
            sent.repeats.append(f"{given.shown(place)}: carried out before")
        else:
            sent.refused.append(f"{given.shown(place)}: {reply}: {why(given, place, reply)}")


def settled(sent: Sent, given: Input, state: State) -> Sent:
    """What came of an input, with its refusals, repeats and the first item without a reply."""
    told(sent, given, state)
    if sent.status == FOUND and not sent.refused:
        sent.status = DONE
    if sent.status not in (DONE, FOUND) and len(sent.replies) < len(given):
        sent.unanswered = f"{given.shown(len(sent.replies))}: the first one without a reply"
    return sent


def report(sent: Sent, given: Input, path: str) -> None:
    """Says what came of an input, and where it ended early what that asks."""
    for text in sent.repeats + sent.refused:
        say(text)
    say(f"{given.count()}: {len(sent.replies)} answered, {len(sent.refused)} refused, "
        f"{counted(sent.new, 'new row')}")
    if sent.unanswered:
        say(sent.unanswered)
    if sent.status not in (DONE, FOUND):
        say(f"billctl ended with {sent.status}: {ask_of(sent.status)}")
        if sent.status == CANNOT_OPEN:
            require_openable(path)
            warn_of_room(path)
    elif sent.status == FOUND:
        say(f"status 1: {ask_of(FOUND)}")


def run(program: str, path: str, data: bytes, new: bool = False, meant: Meant = Meant(),
        wait: int = 0) -> int:
    """Sends request lines or records to a ledger, past the guards. Gives the exit status."""
    given = guards.read_input(data)
    state = state_before(path, new, wait)
    guards.require_near(given.lines, state, meant.far)
    require_meant(given, state, path, meant)
    status, replies = feed_input(program, path, given, sys.stdout)
    sent = Sent(status, replies)
    if status in (DONE, FOUND):
        before = state.rows
        sent.new = read_on(state, path, AFTER_SECONDS).rows - before
    settled(sent, given, state)
    report(sent, given, path)
    return sent.status if sent.status >= 0 else OWN_FILES
