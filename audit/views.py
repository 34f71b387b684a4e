"""What the ledger tells of an account, as texts."""

from .csv_text import export_text
from .lines import show_text
from .machine import Machine
from .repay import repay_text
from .statement_text import statement_text
from .tasks import tasks_text


def view(machine: Machine, name: str, account: str | None = None,
         cycle: int | None = None) -> str | None:
    """The text of a view by its command's word, None where the account or statement isn't there."""
    if name == "work":
        return tasks_text(machine.work())
    if account is None:
        return None
    if name == "show":
        shown = machine.show(account)
        return None if shown is None else show_text(account, *shown)
    if name == "export":
        found = machine.entries(account)
        return None if found is None else export_text(*found)
    if cycle is None:
        return None
    if name == "restate":
        statement = machine.restated_statement(account, cycle)
    else:
        statement = machine.issued_statement(account, cycle)
    if statement is None:
        return None
    return repay_text(statement) if name == "repay" else statement_text(account, statement)
