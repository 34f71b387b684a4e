"""The lines on repayment, as they are counted and as 12 CFR 1026.7(b)(12)(i) rounds them."""

from ..money import half_up
from ..repay import PLAN_MONTHS, AtMinimum, In36, Owing, at_minimum, in_36
from ..statement import Statement
from .issued import Bill, Data

DOLLAR = 100
YEAR = 12
MONTHS_UP_TO = 24  # from here on the time is in years
PLAN_YEARS = 3


def dollars(cents: int) -> int:
    """Whole dollars, half a dollar up, in cents."""
    found: int = half_up(cents, DOLLAR)
    return found * DOLLAR


def time_of(months: int) -> Data:
    """Months below two years, else years, half a year up."""
    if months < MONTHS_UP_TO:
        return {"count": months, "unit": "months"}
    return {"count": (months + YEAR // 2) // YEAR, "unit": "years"}


def owing_of(statement: Statement) -> list[Owing]:
    rates = {line.segment: line.rate for line in statement.rates}
    return [Owing(cents, rates[segment]) for segment, cents in sorted(statement.closing.items())]


def words_of(statement: Statement, least: AtMinimum | None) -> str:
    """Which of the texts applies: none, the minimum alone, both, or that it is never repaid."""
    if sum(statement.closing.values()) <= statement.cycle.minimum:
        return "none"
    if least is None:
        return "never"
    time = time_of(least.months)
    is_short = time["unit"] == "months" or time["count"] <= PLAN_YEARS
    return "minimum" if is_short else "comparison"


def rounded(words: str, least: AtMinimum | None, plan: In36) -> Data:
    """The lines as they are printed."""
    found: Data = {"text": words, "time": None, "minimum_total": None, "payment": None,
                   "payment_total": None, "savings": None}
    if words in ("minimum", "comparison") and least is not None:
        found["time"] = time_of(least.months)
        found["minimum_total"] = dollars(least.total)
    if words in ("comparison", "never"):
        found["payment"] = dollars(plan.payment)
        found["payment_total"] = PLAN_MONTHS * dollars(plan.payment)
    if words == "comparison":
        found["savings"] = found["minimum_total"] - found["payment_total"]
    return found


def repayment_of(bill: Bill) -> Data:
    statement = bill.statement
    owing = owing_of(statement)
    least, plan = at_minimum(owing, statement.floor, statement.pct), in_36(owing)
    segments = [bill.book.segments[s] for s in statement.closing]
    exact = {"minimum_months": least.months if least else None,
             "minimum_total": least.total if least else None,
             "payment": plan.payment, "payment_total": plan.total}
    return {"disclosed": rounded(words_of(statement, least), least, plan), "exact": exact,
            "plan_rates_stay": any(s.in_period(statement.cycle.closing) for s in segments)}
