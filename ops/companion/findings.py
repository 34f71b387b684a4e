"""What `examine` looks at of an account, and what it finds."""

from dataclasses import dataclass
from datetime import date, timedelta

from companion.days import closing, due
from companion.history import Account, History, Post
from companion.late import Asked, credited, has_due_payment
from companion.state import Account as Billed
from companion.texts import Entry, Printed, printed_of

ONE_DAY = timedelta(days=1)
SATURDAY = 5


@dataclass(frozen=True)
class Finding:
    """A thing to ask about: its section, account and day, what it is, and what puts it right."""

    section: str
    account: str
    day: date
    what: str
    remedy: str


def year_after(day: date) -> date:
    """The same day a year later, and March 1 after February 29."""
    try:
        return day.replace(year=day.year + 1)
    except ValueError:
        return date(day.year + 1, 3, 1)


@dataclass
class View:
    """An account with its posts, its bills, its entries, and a server to ask."""

    history: History
    account: Account
    billed: Billed
    entries: list[Entry]
    asked: Asked

    @property
    def name(self) -> str:
        return self.account.name

    @property
    def today(self) -> date:
        return self.history.today

    def closing(self, cycle: int) -> date:
        return closing(self.billed.opened, self.billed.close, cycle)

    def due(self, cycle: int) -> date:
        return due(self.closing(cycle))

    def cycles(self) -> range:
        return range(1, self.billed.closed(self.today) + 1)

    def asks(self, cycle: int) -> bool:
        return has_due_payment(self.billed, cycle)

    def restated(self, cycle: int) -> Printed:
        """A statement by today's corrections."""
        return printed_of(self.asked.restated(self.name, cycle) or "")

    def issued(self, cycle: int) -> Printed:
        """A statement as it was issued."""
        return printed_of(self.asked.statement(self.name, cycle) or "")

    def credited(self, cycle: int, until: date) -> int:
        """The payments credited since a closing, up to a day."""
        return credited(self.entries, self.billed.returns, self.closing(cycle) + ONE_DAY, until)

    def is_business(self, day: date) -> bool:
        return day.weekday() < SATURDAY and day not in self.history.holidays

    def next_business(self, day: date) -> date:
        day += ONE_DAY
        while not self.is_business(day):
            day += ONE_DAY
        return day

    def disputed(self, cycle: int, until: date) -> int:
        """What is in dispute on a day of charges that a statement shows, though it asks for them.

        These are disputes entered after its closing and not resolved by that day.
        """
        cents = 0
        for dispute in self.account.of("dispute"):
            charge = self.account.post(dispute.target)
            if charge is None or not self.closing(cycle) < dispute.day <= until:
                continue
            day, stands = self.account.stands(charge)
            if day <= self.closing(cycle) and not self.is_resolved(dispute, until):
                cents += min(dispute.cents, max(stands, charge.cents))
        return cents

    def is_resolved(self, dispute: Post, until: date) -> bool:
        return any(found.day <= until for found in self.account.naming("resolve", dispute.number))

    def long_late(self, day: date) -> dict[int, int]:
        """The statements more than sixty days late on a day, with what is missing of each."""
        found = {}
        for cycle in self.cycles():
            if self.asks(cycle) and (day - self.due(cycle)).days > 60:
                missing = self.restated(cycle).minimum - self.credited(cycle, day)
                if missing > 0:
                    found[cycle] = missing
        return found
