"""A statement as data: one object of numbers, days and names."""

import json

from ..days import day_text, ymd
from ..fees import fees_sum
from ..payments import past_due
from .balances import balances_of, deferred_of
from .corrections import corrections_of
from .issued import Bill, Data
from .repayment import repayment_of
from .transactions import (GROUPS, disputes_of, fees_of, next_closing, notices_of, penalties_of,
                           transactions_of)

FORMAT = 1
CURRENCY = "USD"


def summary_of(bill: Bill, transactions: list[Data]) -> Data:
    """From the previous balance to the new one."""
    statement, cycle = bill.statement, bill.statement.cycle
    sums = {group: sum(one["cents"] for one in transactions if one["group"] == group)
            for group in GROUPS}
    return {"previous_balance": statement.previous, "earlier_corrections": statement.corrections,
            **sums, "interest": sum(cycle.interest.values()), "new_balance": cycle.new_balance,
            "in_dispute": cycle.held,
            "plan_purchases": sum(one["cents"] for one in transactions
                                  if (one["place"] or "").startswith("plan:")
                                  and one["group"] == "purchases")}


def payment_of(bill: Bill) -> Data:
    """What is asked for, by when, and what a late payment may cost."""
    statement, cycle = bill.statement, bill.statement.cycle
    due = day_text(cycle.due) if statement.due_payment else None
    late = {"fee_up_to": statement.late_up_to, "rate_up_to": statement.penalty}
    return {"minimum": cycle.minimum, "past_due": past_due(bill.book, bill.cycle), "due": due,
            "grace_amount": cycle.grace_amount, "grace_by": due,
            "late": late if statement.due_payment and cycle.minimum > 0 else None}


def data_of(bill: Bill) -> Data:
    """All that a statement is printed of, but for the issuer's own texts and names."""
    statement, cycle = bill.statement, bill.statement.cycle
    transactions = transactions_of(bill)
    return {
        "format": FORMAT, "currency": CURRENCY, "account": bill.account, "cycle": bill.cycle,
        "issued": day_text(bill.day), "bill": bill.number, "addressee": None,
        "period": {"first": day_text(cycle.first), "closing": day_text(cycle.closing),
                   "days": cycle.closing - cycle.first + 1, "next_closing": next_closing(bill)},
        "summary": summary_of(bill, transactions), "payment": payment_of(bill),
        "year_to_date": {"year": ymd(cycle.closing)[0], "fees": statement.fees_year,
                         "interest": statement.interest_year},
        "transactions": transactions,
        "fees": {"total": fees_sum(cycle.fees), "each": fees_of(bill)},
        "balances": balances_of(bill), "deferred": deferred_of(bill),
        "corrections": corrections_of(bill), "disputes": disputes_of(bill),
        "notices": notices_of(bill), "penalties": penalties_of(bill),
        "repayment": repayment_of(bill)}


def json_text(data: Data) -> str:
    return json.dumps(data, sort_keys=True, indent=1) + "\n"
