"""A made bank: what comes in day by day, drawn by a generator with a fixed start."""

import random
from datetime import date, timedelta

FIRST = date(2026, 1, 4)
ONE_DAY = timedelta(days=1)
KEYED = "account,key,kind,day,place,cents,minute,channel,of\n"
COLUMNS = """date = "MM/DD/YYYY"
newest_days = 3
oldest_days = 20
total = "TOTAL"

[columns]
account = "Card"
key = "Reference"
day = "Posted"
debit = "Debit"
credit = "Credit"

[always]
place = "purchase"
channel = "online"
minute = 600

[signs]
plus = "charge"
minus = "payment"
"""

# From a notice to its rate, and from an opening to the first rate that a notice may bring, in days.
NOTICE = 45
YEAR = 366

# The desk begins so many days before the last day for it to refund a credit balance: a payment that
# comes in with the refund leaves another one.
NEAR = 5


def money(cents: int) -> str:
    return f"{cents // 100}.{cents % 100:02}"


class Bank:
    """What a bank of so many accounts sends. `mark` begins its keys."""

    def __init__(self, accounts: int, mark: str = "k") -> None:
        self.draw = random.Random(20260104)
        self.names = [f"card-{number:03}" for number in range(1, accounts + 1)]
        self.mark = mark
        self.keys = 0
        self.sent: list[tuple[str, str]] = []
        self.payments: list[tuple[str, str]] = []
        self.charges: list[tuple[str, str, int]] = []
        self.disputes: list[tuple[str, str, date]] = []
        self.refunded: set[tuple[str, date]] = set()
        self.cash_rates: dict[str, int] = {}

    def opening(self) -> str:
        """The fee table, the index, a holiday, and the accounts; each fourth follows the index."""
        lines = ["feerow 2011-01-02 3000 4100", "index 2011-01-02 500", "holiday 2026-05-25",
                 f"roll {FIRST}"]
        for number, name in enumerate(self.names):
            terms = f"{name} o {FIRST} {number % 28 + 1} "
            lines.append("openvar " + terms + "1449 1949 1649 2999 2500 100" if number % 4 == 0
                         else "open " + terms + "1999 2499 2199 2999 2500 100")
        return "".join(line + "\n" for line in lines)

    def key(self, name: str) -> str:
        """A new key, which is kept as one that was sent of the account."""
        self.keys += 1
        self.sent.append((name, f"{self.mark}{self.keys}"))
        return f"{self.mark}{self.keys}"

    def sheet(self, day: date) -> str:
        """The sheet of a day in the bank's own columns, with its total."""
        lines, debits, credits = ["Card,Reference,Posted,Debit,Credit,Text"], 0, 0
        for _ in range(self.draw.randint(len(self.names) // 5, len(self.names) // 3)):
            name = self.draw.choice(self.names)
            key, posted = self.key(name), f"{day:%m/%d/%Y}"
            if self.draw.random() < 0.3:
                cents = self.draw.randint(1_000, 40_000)
                credits += cents
                self.payments.append((name, key))
                lines.append(f"{name},{key},{posted},,{money(cents)},paid")
            else:
                cents = self.draw.randint(100, 20_000)
                debits += cents
                self.charges.append((name, key, cents))
                lines.append(f"{name},{key},{posted},{money(cents)},,shop")
        lines.append(f"TOTAL,,,{money(debits)},{money(credits)},")
        return "".join(line + "\n" for line in lines)

    def returned(self, day: date) -> str:
        """A payment that came back, by its key."""
        if not self.payments or self.draw.random() < 0.7:
            return ""
        name, key = self.payments.pop(self.draw.randrange(len(self.payments)))
        return KEYED + f"{name},{self.key(name)},return,{day},,,,,{key}\n"

    def desk(self, day: date) -> str:
        """A new dispute, and the answers to older ones: acknowledged at once, resolved later."""
        records = []
        if self.charges and self.draw.random() < 0.1:
            name, key, cents = self.charges.pop()
            dispute = self.key(name)
            records.append(f"{name},{dispute},dispute,{day},,{cents},,,{key}")
            self.disputes.append((name, dispute, day))
        for name, dispute, opened in list(self.disputes):
            if (day - opened).days == 2:
                records.append(f"{name},{self.key(name)},ack,{day},,,,,{dispute}")
            if (day - opened).days == 20:
                self.disputes.remove((name, dispute, opened))
                records.append(f"{name},{self.key(name)},resolve,{day},,"
                               f"{self.draw.choice((0, 50))},,,{dispute}")
        return KEYED + "".join(line + "\n" for line in records) if records else ""

    def rates(self, day: date) -> str:
        """Changes of rates: the index each month, a lower rate of one account, and a notice of a
        higher one where its first year is over when it takes effect."""
        if day.day == 1:
            return f"index {day + timedelta(days=10)} {self.draw.randint(400, 600)}\n"
        name = self.draw.choice(self.names[1::4])
        if day.day == 15:
            self.cash_rates[name] = self.cash_rates.get(name, 2499) - 25
            return f"lower {name} {self.key(name)} {day} cash {self.cash_rates[name]}\n"
        effective = day + timedelta(days=NOTICE)
        if day.day == 20 and effective >= FIRST + timedelta(days=YEAR):
            return f"notice {name} {self.key(name)} {day} purchase 2499 {effective}\n"
        return ""

    def to_refund(self, tasks: str, since: date, day: date) -> list[str]:
        """The accounts whose credit balance the desk refunds in the night of a day: those whose
        last day for it is near, by the tasks of the last night, each once."""
        near = {line.split(" ")[1] for line in tasks.splitlines() if " CREDIT " in line
                and line[:10] <= str(day + timedelta(days=NEAR))}
        names = sorted(name for name in near if (name, since) not in self.refunded)
        self.refunded.update((name, since) for name in names)
        return names

    def refunds(self, credits: dict[str, int]) -> str:
        """The refunds of credit balances, in cents."""
        return "".join(f"refund {name} {self.key(name)} {cents}\n"
                       for name, cents in credits.items())

    def files(self, day: date) -> dict[str, str]:
        """What comes in for the night of a day, by the names of its files."""
        before = day - ONE_DAY
        found = {f"bank-{before}.csv": self.sheet(before),
                 f"nsf-{day}.csv": self.returned(day), f"desk-{day}.csv": self.desk(day),
                 f"rates-{day}.txt": self.rates(day)}
        return {name: text for name, text in found.items() if text}
