"""The hand of a night: sends its inputs by one load of the rows where that is faster.

One server takes roll, records and bills, a commit each, and answers all that is printed. Where so
many records wait that a commit each is slower than one more load, one `apply` takes them first. By
calls, and for inputs that the companion may read otherwise than billctl, each is a call of its own.
"""

import contextlib

from companion.check import require_sound
from companion.inputs import Input, Numbers
from companion.opening import copied, require_openable, warn_of_room
from companion.program import ask_of
from companion.run import AFTER_SECONDS, Sent, settled
from companion.server import Ended, NoServer, Server, ended_early
from companion.sessions import Calls, Cut, Pipe, Served, Session
from companion.state import State, read_on
from companion.statements import Asker
from companion.trouble import DONE, FOUND, OWN_FILES, Trouble, say

# Measured: rows that a start carries out in a second, and lines that a server keeps in a second.
LOADED = 200_000
POSTED = 800

# So few lines go by the server, however few rows there are.
FEW = 50
UNKNOWN = "-"


def is_bulk(lines: int, rows: int) -> bool:
    """Whether so many lines are faster by one more load and `apply` than by a server."""
    return lines > FEW and lines / POSTED > rows / LOADED


class Hand:
    """Sends inputs to a ledger, keeps its state, and answers what is asked, in as few loads."""

    def __init__(self, program: str, path: str, state: State, calls: bool, bulk: bool,
                 count: int) -> None:
        self.program = program
        self.path = path
        self.state = state
        self.calls = calls
        self.bulk = bulk
        self.server = Server(program, path, count)
        self.session: Session | None = None
        self.numbers: Numbers = {}

    def begin(self) -> None:
        """Has billctl load the rows. Raises Trouble with the cause where it can't."""
        if self.session is not None or self.calls:
            return
        try:
            if self.bulk:
                self.session = Pipe(self.program, self.path)
                self.session.send(Input(b"", "apply", [f"show {UNKNOWN}0"]))
            else:
                self.server.begin()
                self.session = Served(self.server)
        except NoServer:
            say("night: the server gave no answer; the rest by calls")
            self.calls = True
        except (Ended, Cut) as ended:
            self.session = None
            self.server.end()
            with copied(self.path, AFTER_SECONDS) as copy:
                require_sound(self.program, self.path, copy)
            raise ended_early(ended.status, self.path) from None

    def prove(self, copy: str) -> None:
        """Has billctl load the rows of a copy: those of the file itself, or by a call."""
        if self.calls:
            require_sound(self.program, self.path, copy)
        else:
            self.begin()

    def send(self, given: Input, name: str) -> Sent:
        """Sends an input. Ends the night where billctl couldn't go on."""
        given.numbers = self.numbers
        given.made.clear()
        if self.calls or not given.is_plain:
            self.close()
            sent = self.by_call(given)
        else:
            self.begin()
            sent = self.by_session(given) if self.session else self.by_call(given)
        settled(sent, given, self.state)
        if sent.status not in (DONE, FOUND):
            self.close()
            require_openable(self.path)
            warn_of_room(self.path)
            where = f"; {sent.unanswered}" if sent.unanswered else ""
            raise Trouble(f"{name}: billctl ended with {sent.status}: {ask_of(sent.status)}"
                          f"{where}", sent.status if sent.status > 0 else OWN_FILES)
        return sent

    def by_call(self, given: Input) -> Sent:
        """By a call of its own; the new rows are read off the file."""
        try:
            sent = Sent(DONE, Calls(self.program, self.path).send(given))
        except Cut as cut:
            return Sent(cut.status, cut.replies)
        for request, reply in zip(given.requests(), sent.replies):
            if request and self.state.is_new(request, reply) and "key" in request.fields:
                self.note(request.fields["account"], request.fields["key"], reply)
        before = self.state.rows
        sent.new = read_on(self.state, self.path, AFTER_SECONDS).rows - before
        return sent

    def by_session(self, given: Input) -> Sent:
        """Over what is open; the new rows are those that the replies tell."""
        assert self.session is not None
        try:
            sent = Sent(DONE, self.session.send(given))
        except Cut as cut:
            sent = Sent(cut.status, cut.replies)
        for request, reply in zip(given.requests(), sent.replies):
            if self.state.take_reply(request, reply):
                sent.new += 1
                if request and "key" in request.fields:
                    self.note(request.fields["account"], request.fields["key"], reply)
        return sent

    def note(self, account: str, key: str, reply: str) -> None:
        """Keeps the number of a post of tonight, so that a later record may name its key."""
        self.numbers[account, key] = int(reply[3:])

    def asker(self) -> Asker:
        """Answers questions; what was open for many lines is ended before, and isn't begun again
        where an input by a call of its own ended it."""
        if self.bulk:
            self.close()
            self.bulk = False
        self.begin()
        return Asker(self.program, self.path, None if self.calls else self.server)

    def drop(self) -> None:
        """Lets the file go on a way out that has its own cause."""
        with contextlib.suppress(Trouble):
            self.close()

    def close(self) -> None:
        """Lets the file go."""
        session, self.session = self.session, None
        try:
            if session is not None:
                session.end()
        except Cut as cut:
            raise ended_early(cut.status, self.path) from None
        finally:
            self.server.end()
