"""What is owed on a day, by segment, as the entries that it is made of."""

from typing import Any

from ..days import day_text
from ..money import money_text
from .account import NotThere, Watching
from .derivation import Derivation
from .document import Document
from .facts import Rows
from .numbers import Number, Printed, export_numbers


class Owed:
    """The balances of a day, today if none is given."""

    def __init__(self, machine: Watching, rows: Rows, day: int | None) -> None:
        if rows.account not in machine.accounts:
            raise NotThere(f"no account is named {rows.account}")
        account = machine.accounts[rows.account]
        book = machine.book(account)
        self.day = machine.today if day is None else day
        if not account.anchor.opened <= self.day <= machine.today:
            raise NotThere(f"{day_text(self.day)} isn't a day from "
                           f"{day_text(account.anchor.opened)} to {day_text(machine.today)}")
        self.derivation = Derivation(rows.account, rows, book).upto(len(book.cycles))
        self.derivation.rest()
        self.count = sum(e.day <= self.day for e in book.entries)
        head: dict[str, Any] = {"account": rows.account, "as": "balance", "day": day_text(self.day),
                                "today": day_text(machine.today), "rows_up_to": rows.kept[-1][0]}
        self.document = Document(rows, head)
        self._fill()

    def _fill(self) -> None:
        d, document = self.derivation, self.document
        document.entries = (0, self.count)
        balances = []
        for segment in d.book.segments:
            last = [node for day, node in d.balances.changes[segment.number] if day <= self.day]
            node = last[-1]
            if node.how != "none":
                document.numbers.append(Number(f"balance {segment.name}", node))
                balances.append(node)
        owed = d.nodes.make("sum", balances, f"owed at the end of {day_text(self.day)}", "entries",
                            "cents")
        assert owed.value == d.book.owed_at(self.day)
        change = Printed("trial")
        change.add("change {}", ("owed", owed))
        document.add(change)
        document.add(export_numbers(d, "export", 0, self.count))
        document.close(self.day, d.book.corrected.effective, d.issued.texts)

    def text(self) -> str:
        """Of each segment its entries, with what is owed after each."""
        book, out = self.derivation.book, []
        out.append(f"WHAT {self.document.head['account']} OWES AT THE END OF {day_text(self.day)}: "
                   f"{money_text(book.owed_at(self.day))}")
        for segment in book.segments:
            entries = [e for e in book.of_segment[segment.number] if e.day <= self.day]
            if not entries:
                continue
            out += ["", f"{segment.name}: {money_text(sum(e.cents for e in entries))}",
                    f"{'DAY':10} {'CENTS':>14} {'OWED AFTER':>14}  ENTRY"]
            owed = 0
            for e in entries:
                owed += e.cents
                name = (self.derivation.facts.post_name(e.post) if e.post else "")
                said = e.kind if not name or name.startswith(e.kind) else f"{e.kind} by the"
                said = name if name.startswith(e.kind) else f"{said} {name}".rstrip()
                out.append(f"{day_text(e.day)} {money_text(e.cents):>14} {money_text(owed):>14}  "
                           f"{said}")
        return "\n".join(out) + "\n"
