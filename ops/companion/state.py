"""What the rows of a ledger give without a rule: today, the accounts, closings and bills."""

from collections.abc import Iterable, Iterator
from dataclasses import dataclass, field
from datetime import date

from companion.days import FIRST_DAY, closed_cycles, closing, last_bill_day
from companion.opening import Row, damaged, open_rows
from companion.requests import CODES, OPENINGS, SHARED, Request
from companion.rows import NoSpelling, account_and_key, decode

FORMATS = (1, 2)
LAST_CLOSE = 28

# The codes of posts of which it is enough to count them.
READ = (*SHARED, *OPENINGS, "bill", "return")
COUNTED = frozenset(code for code, word in CODES.items() if word not in READ)

# The code of a roll in a row.
ROLL = b"\x01"

# Keys that this companion gives to bills begin so.
BILL_KEY = "bill-"


@dataclass
class Account:
    """An account as its posts have it: its opening, its closing day, its posts and its bills."""

    name: str
    opened: date
    close: int
    posts: int = 0
    bills: dict[int, date] = field(default_factory=dict)
    bill_posts: dict[int, int] = field(default_factory=dict)
    bill_keys: set[str] = field(default_factory=set)
    returns: dict[int, int] = field(default_factory=dict)

    def count(self, key: str) -> None:
        """One more post, with its key."""
        self.posts += 1
        if key.startswith(BILL_KEY):
            self.bill_keys.add(key)

    def is_last(self, cycle: int) -> bool:
        """Whether nothing but bills came behind the bill of a cycle."""
        number = self.bill_posts[cycle]
        return self.posts - number == sum(one > number for one in self.bill_posts.values())

    def closed(self, today: date) -> int:
        return closed_cycles(self.opened, self.close, today)


@dataclass(frozen=True)
class Due:
    """A closed cycle without a bill, and the last day on which its bill asks for a payment."""

    account: str
    cycle: int
    closing: date
    last_day: date


@dataclass
class State:
    """What a ledger's rows come to."""

    rows: int = 0
    today: date = FIRST_DAY
    accounts: dict[str, Account] = field(default_factory=dict)
    shared: set[str] = field(default_factory=set)
    issued: list[tuple[date, str, int]] = field(default_factory=list)
    returned: list[tuple[int, str, str]] = field(default_factory=list)

    def take(self, request: Request) -> None:
        """Carries out the request of the next row."""
        self.rows += 1
        if request.word in SHARED:
            self.shared.add(request.line())
            if request.word == "roll":
                self.today = date.fromisoformat(request.fields["day"])
            return
        name, key = request.fields["account"], request.fields["key"]
        if request.word in OPENINGS:
            close = int(request.fields["close"])
            if not 1 <= close <= LAST_CLOSE:
                raise NoSpelling(f"it opens an account that closes on day {close} of the month")
            opened = date.fromisoformat(request.fields["day"])
            self.accounts[name] = Account(name, opened, close)
        account = self.accounts[name]
        account.count(key)
        if request.word == "bill":
            cycle = int(request.fields["cycle"])
            account.bills[cycle] = self.today
            account.bill_posts[cycle] = account.posts
            self.issued.append((self.today, name, cycle))
        elif request.word == "return":
            account.returns[account.posts] = int(request.fields["target"])
            self.returned.append((self.rows, name, key))

    def is_new(self, request: Request, reply: str) -> bool:
        """Whether a reply says that a request was accepted now, and not before."""
        if not reply.startswith("ok"):
            return False
        if request.word in SHARED:
            return True
        account = self.accounts.get(request.fields["account"])
        return int(reply[3:]) > (account.posts if account else 0)

    def take_reply(self, request: Request | None, reply: str) -> bool:
        """Carries out a request that was accepted now. Says whether it was."""
        if request is None or not self.is_new(request, reply):
            return False
        self.take(request)
        return True

    def issued_on(self, day: date) -> list[tuple[str, int]]:
        """The account and the cycle of each statement that was issued on a day."""
        return [(account, cycle) for when, account, cycle in self.issued if when == day]

    def returned_since(self, rows: int) -> list[str]:
        """The account and the key of each return behind so many rows."""
        return [f"{account} {key}" for row, account, key in self.returned if row > rows]

    def due(self) -> list[Due]:
        """The closed cycles without a bill, those whose last day comes first in front."""
        found = []
        for account in self.accounts.values():
            for cycle in range(1, account.closed(self.today) + 1):
                if cycle not in account.bills:
                    closed = closing(account.opened, account.close, cycle)
                    found.append(Due(account.name, cycle, closed, last_bill_day(closed)))
        return sorted(found, key=lambda one: (one.last_day, one.account, one.cycle))


def requests_of(rows: Iterable[Row], since: int = 0) -> Iterator[Request]:
    """The request of each row, in order.

    Raises Trouble at the first one that isn't sound by itself.
    """
    for number, (seq, body) in enumerate(rows, start=since + 1):
        if seq != number:
            raise damaged(number, f"its number is {seq}")
        try:
            yield decode(body)
        except NoSpelling as reason:
            raise damaged(number, str(reason)) from reason


def take_row(state: State, body: bytes) -> None:
    """Carries out a row.

    Of most posts only the account and the key are read, since ledgers have many of them.
    """
    if len(body) < 2 or body[0] not in FORMATS or body[1] not in COUNTED:
        state.take(decode(body))
        return
    name, key = account_and_key(body)
    state.accounts[name].count(key)
    state.rows += 1


def fold(state: State, rows: Iterable[Row]) -> State:
    """Carries out the rows behind those that the state has, and gives it.

    Raises Trouble at one that can't be sound.
    """
    for seq, body in rows:
        number = state.rows + 1
        if seq != number:
            raise damaged(number, f"its number is {seq}")
        try:
            take_row(state, body)
        except NoSpelling as reason:
            raise damaged(number, str(reason)) from reason
        except KeyError as name:
            raise damaged(number,
                          f"it names the account {name.args[0]}, which isn't there") from name
        except IndexError as reason:
            raise damaged(number, "its bytes end inside a field") from reason
    return state


def read_state(path: str, wait: int = 0) -> State:
    """What the rows of a ledger's file come to."""
    return read_on(State(), path, wait)


def count_and_today(path: str, wait: int = 0) -> tuple[int, date]:
    """How many rows a file has, and its today, by a look at its rolls alone."""
    count, roll = 0, (0, b"")
    with open_rows(path, wait) as rows:
        for _, body in rows:
            count += 1
            if body[1:2] == ROLL:
                roll = (count, body)
    if not roll[0]:
        return count, FIRST_DAY
    try:
        return count, date.fromisoformat(decode(roll[1]).fields["day"])
    except NoSpelling as reason:
        raise damaged(roll[0], str(reason)) from reason


def read_on(state: State, path: str, wait: int = 0) -> State:
    """The state with the rows that came behind it."""
    with open_rows(path, wait, state.rows) as rows:
        return fold(state, rows)
