"""The data held against the program: its statement, its repayment and its entries.

Each text of the program is made again of the data alone, so that every number that the program
prints is one of the data.
"""

import csv
import tempfile
from collections.abc import Iterable
from pathlib import Path

from ..difference import first_difference
from ..ledger_file import write
from ..program import Failed, Program
from .issued import Data, Kept
from .transactions import KINDS

Entries = dict[tuple[str, str, str, int], int]


class Parted(Exception):
    """A number of the data isn't the program's; both are in the words."""


def money(cents: int) -> str:
    sign = "-" if cents < 0 else ""
    return f"{sign}{abs(cents) // 100}.{abs(cents) % 100:02d}"


def percent(rate: int) -> str:
    return f"{rate // 100}.{rate % 100:02d}%"


def _labelled(label: str, value: str) -> str:
    return f"{label:<28} {value:>14}"


def text_of(data: Data) -> str:
    """The statement's text, of the data alone."""
    period, sums, payment = data["period"], data["summary"], data["payment"]
    lines = [f"STATEMENT {data['account']} CYCLE {data['cycle']}",
             f"PERIOD {period['first']} TO {period['closing']}",
             _labelled("PREVIOUS BALANCE", money(sums["previous_balance"])),
             _labelled("EARLIER CORRECTIONS", money(sums["earlier_corrections"]))]
    lines += [f"{one['day']} {one['kind']:<10} {one['post']:>6} {money(one['cents']):>14}"
              for one in data["transactions"]]
    year = data["year_to_date"]
    lines += [_labelled("FEES THIS PERIOD", money(data["fees"]["total"])),
              _labelled("INTEREST THIS PERIOD", money(sums["interest"])),
              _labelled("FEES THIS YEAR", money(year["fees"])),
              _labelled("INTEREST THIS YEAR", money(year["interest"])),
              _labelled("NEW BALANCE", money(sums["new_balance"])),
              _labelled("IN DISPUTE", money(sums["in_dispute"])),
              _labelled("MINIMUM PAYMENT", money(payment["minimum"])),
              _labelled("PAYMENT DUE DATE", payment["due"] or "-")]
    lines += [_rate_line(one) for one in data["balances"] if one["on_text"]]
    lines += [f"DEFERRED {one['segment']} {money(one['balance'])} {money(one['accrued'])} "
              f"PAY IN FULL BY {one['pay_in_full_by']}" for one in data["deferred"]]
    if payment["late"]:
        lines.append(f"LATE PAYMENT FEE UP TO {money(payment['late']['fee_up_to'])} "
                     f"AND RATE UP TO {percent(payment['late']['rate_up_to'])}")
    return "".join(line + "\n" for line in lines)


def _rate_line(one: Data) -> str:
    return (f"RATE {one['segment']:<12} {percent(one['rate']):>7} "
            f"{'0.%09d' % one['daily_rate_billionths']:>12} "
            f"{money(one['average_daily_balance']):>14} {money(one['interest']):>14}")


def repaid_of(data: Data) -> str:
    """The two lines on repayment, of the data alone."""
    exact = data["repayment"]["exact"]
    first = ("MINIMUM ONLY NEVER" if exact["minimum_months"] is None else
             f"MINIMUM ONLY MONTHS {exact['minimum_months']} "
             f"TOTAL {money(exact['minimum_total'])}")
    return (f"{first}\nTHIRTY-SIX MONTHS PAYMENT {money(exact['payment'])} "
            f"TOTAL {money(exact['payment_total'])}\n")


def entries_of(data: Data) -> Entries:
    """The entries of the cycle's transactions by day, segment, kind and post."""
    return {(one["day"], part["segment"], KINDS[one["kind"]], one["post"]): part["cents"]
            for one in data["transactions"] for part in one["parts"] if part["cents"]}


def hold_entries(data: Data, records: Iterable[list[str]]) -> None:
    """Transactions, interest and balances are those of the exported entries."""
    first, last = data["period"]["first"], data["period"]["closing"]
    theirs: Entries = {}
    sums: dict[str, int] = {}
    interest = 0
    for day, segment, kind, post, cents in records:
        if day <= last:
            sums[segment] = sums.get(segment, 0) + int(cents)
        if first <= day <= last and kind == "interest":
            interest += int(cents)
        elif first <= day <= last and kind != "hold":
            place = (day, segment, kind, int(post))
            theirs[place] = theirs.get(place, 0) + int(cents)
    theirs = {place: cents for place, cents in theirs.items() if cents}
    same("entries", entries_of(data), theirs)
    same("interest", data["summary"]["interest"], interest)
    same("new balance", data["summary"]["new_balance"], sum(sums.values()))
    same("in dispute", data["summary"]["in_dispute"], sums.get("held", 0))
    same("held by disputes", sum(one["held"] for one in data["disputes"]), sums.get("held", 0))
    for one in data["balances"]:
        same(f"balance of {one['segment']}", one["balance"], sums.get(one["segment"], 0))


def same(what: str, ours: object, theirs: object) -> None:
    if ours != theirs:
        raise Parted(f"{what}\n  model:   {ours}\n  program: {theirs}")


def hold_sums(data: Data) -> None:
    """What has to add up in the data itself."""
    sums = data["summary"]
    groups = ("previous_balance", "earlier_corrections", "payments", "other_credits", "purchases",
              "cash_advances", "transfers", "returned_payments", "refunds", "fees", "interest")
    same("sum of the groups", sum(sums[group] for group in groups), sums["new_balance"])
    same("sum of the fees", sum(one["cents"] for one in data["fees"]["each"]), sums["fees"])
    same("sum of the corrections", sum(one["changed"] for one in data["corrections"]),
         sums["earlier_corrections"])
    same("interest of all balances", sum(one["interest"] for one in data["balances"]),
         sums["interest"])


class Held:
    """The program over the rows of one account, up to its last statement of the day."""

    def __init__(self, path: str, rows: Kept) -> None:
        self.path, self.rows = path, rows

    def hold(self, data: Data) -> None:
        """Every text of the program is that of the data; else raises Parted."""
        name, cycle = data["account"], str(data["cycle"])
        what = f"account {name}, statement {cycle}"
        with tempfile.TemporaryDirectory(prefix="statements-") as folder:
            file = Path(folder) / "account.db"
            write(file, [body for _, body in self._up_to(data)])
            program = Program(self.path, str(file))
            self._same(f"{what}, text", text_of(data), program, "statement", name, cycle)
            self._same(f"{what}, repayment", repaid_of(data), program, "repay", name, cycle)
            records = list(csv.reader(asked(program, "export", name).decode().splitlines()))
        try:
            hold_entries(data, records[1:])
            hold_sums(data)
        except Parted as parted:
            raise Parted(f"{what}, {parted}") from None

    def _up_to(self, data: Data) -> Kept:
        """The rows up to the bill of the statement: entries are those of that moment."""
        place, name = 0, data["account"].encode()
        found: Kept = []
        for seq, body in self.rows:
            found.append((seq, body))
            if body[3:3 + body[2]] == name and len(name) == body[2]:
                place += 1
                if place == data["bill"]:
                    break
        return found

    def _same(self, what: str, ours: str, program: Program, *words: str) -> None:
        found = first_difference(ours.encode(), asked(program, *words), side="program")
        if found is not None:
            raise Parted(f"{what}, {found}")


def asked(program: Program, *words: str) -> bytes:
    out, status = program.run(list(words))
    if status != 0:
        raise Failed(f"{words[0]} ends with status {status}")
    return bytes(out)
