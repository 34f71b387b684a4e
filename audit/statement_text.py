"""The text of a statement."""

from .days import day_text
from .fees import fees_sum
from .money import daily_text, money_text, rate_text
from .statement import Statement


def _labelled(label: str, value: str) -> str:
    return f"{label:<28} {value:>14}"


def _numbers(s: Statement) -> list[str]:
    """The labelled lines behind the transactions."""
    c = s.cycle
    return [_labelled("FEES THIS PERIOD", money_text(fees_sum(c.fees))),
            _labelled("INTEREST THIS PERIOD", money_text(sum(c.interest.values()))),
            _labelled("FEES THIS YEAR", money_text(s.fees_year)),
            _labelled("INTEREST THIS YEAR", money_text(s.interest_year)),
            _labelled("NEW BALANCE", money_text(c.new_balance)),
            _labelled("IN DISPUTE", money_text(c.held)),
            _labelled("MINIMUM PAYMENT", money_text(c.minimum)),
            _labelled("PAYMENT DUE DATE", day_text(c.due) if s.due_payment else "-")]


def statement_text(account: str, s: Statement) -> str:
    """The lines of a statement, each with its line feed."""
    c = s.cycle
    lines = [f"STATEMENT {account} CYCLE {c.number}",
             f"PERIOD {day_text(c.first)} TO {day_text(c.closing)}",
             _labelled("PREVIOUS BALANCE", money_text(s.previous)),
             _labelled("EARLIER CORRECTIONS", money_text(s.corrections))]
    for move in s.moves:
        lines.append(f"{day_text(move.day)} {move.kind:<10} {move.post:>6} "
                     f"{money_text(move.cents):>14}")
    lines += _numbers(s)
    for r in s.rates:
        lines.append(f"RATE {r.name:<12} {rate_text(r.rate):>7} {daily_text(r.rate):>12} "
                     f"{money_text(r.average):>14} {money_text(r.interest):>14}")
    for d in s.deferred:
        lines.append(f"DEFERRED {d.name} {money_text(d.balance)} {money_text(d.accrued)} "
                     f"PAY IN FULL BY {day_text(d.ends)}")
    if s.due_payment and c.minimum > 0:
        lines.append(f"LATE PAYMENT FEE UP TO {money_text(s.late_up_to)} "
                     f"AND RATE UP TO {rate_text(s.penalty)}")
    return "".join(line + "\n" for line in lines)
