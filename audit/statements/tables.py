"""The tables of a page: transactions, fees, interest and its calculation."""

from collections.abc import Iterable

from .issued import Data
from .issuer import Issuer
from .markup import daily, day, money, pairs, percent, plain, section, words

# The groups of transactions, in the order of the page.
TITLES = (("payments", "Payments"), ("other_credits", "Other credits"),
          ("returned_payments", "Returned payments"), ("refunds", "Credit balances paid out"),
          ("purchases", "Purchases"), ("cash_advances", "Cash advances"),
          ("transfers", "Balance transfers"))
CATEGORIES = (("purchase", "purchases"), ("cash", "cash advances"),
              ("transfer", "balance transfers"))
SOURCES = {"index": "variable rate", "penalty": "penalty rate", "promotion": "promotional rate",
           "deferred": "deferred interest plan", "after_plan": "rate after a plan",
           "notice": "rate of a notice", "lowered": "lowered rate", "terms": ""}
DEFERRED = "Deferred interest balance"
_SAID = {"PAYMENT": "Payment, thank you", "CREDIT": "Credit",
         "REFUND": "Refund of a credit balance", "RETURN": "Payment returned unpaid"}
_CHARGED = {"cash": "Cash advance", "transfer": "Balance transfer"}


def cell(label: str, value: str, kind: str = "n") -> str:
    """A cell that has its label beside it where the table is stacked."""
    style = f' class="{kind}"' if kind else ""
    return f'<td role="cell" data-as="{label}"{style}><span>{value}</span></td>'


def table(caption: str, heads: Iterable[tuple[str, str]], rows: list[str]) -> str:
    """A table with heads, that is stacked where the page is narrow."""
    head = "".join(f'<th role="columnheader" scope="col" class="{kind}">{name}</th>'
                   for name, kind in heads)
    said = f"<caption>{caption}</caption>" if caption else ""
    return (f'<table class="stack" role="table">{said}<thead role="rowgroup"><tr role="row">{head}'
            f'</tr></thead><tbody role="rowgroup">{"".join(rows)}</tbody></table>')


def row(cells: str, kind: str = "") -> str:
    style = f' class="{kind}"' if kind else ""
    return f'<tr role="row"{style}>{cells}</tr>'


def total(label: str, cents: int, columns: int) -> str:
    """The last row of a table."""
    return row(f'<th role="rowheader" scope="row" colspan="{columns - 1}">{label}</th>'
               f"{cell('', money(cents))}", "sum total")


def said_of(one: Data) -> str:
    """What a transaction is: the issuer's note, else its kind."""
    if one["note"] is not None:
        return words(one["note"])
    if one["kind"] == "CHARGE":
        return _CHARGED.get(one["place"], "Purchase [merchant]")
    said = _SAID[one["kind"]]
    return f"{said} (reference {plain(one['target_key'])})" if one["target_key"] else said


def transactions_of(data: Data) -> str:
    """The transactions by group, each with its sum."""
    heads = (("Reference", "key"), ("Made on", "day"), ("Posted on", "day"), ("Description", ""),
             ("Amount", "n amount"))
    out = []
    for group, title in TITLES:
        found = [one for one in data["transactions"] if one["group"] == group]
        if found:
            rows = [row(cell("Reference", plain(one["key"] or ""), "")
                        + cell("Made on", day(one["own_day"] or one["day"]), "")
                        + cell("Posted on", day(one["day"]), "")
                        + cell("Description", said_of(one), "")
                        + cell("Amount", money(one["cents"]))) for one in found]
            rows.append(total(f"Total {title.lower()}", data["summary"][group], len(heads)))
            out.append(table(title, heads, rows))
    return section("transactions", "Transactions",
                   "".join(out) or "<p>There were no transactions in this billing cycle.</p>")


def fees_of(data: Data) -> str:
    """Each fee, and their sum."""
    heads = (("Posted on", "day"), ("Description", ""), ("Amount", "n amount"))
    names = {"late": "Late fee", "returned": "Returned payment fee"}
    rows = [row(cell("Posted on", day(fee["day"]), "")
                + cell("Description", f"{names[fee['kind']]}, for the payment due "
                       f"{day(fee['due'])}", "")
                + cell("Amount", money(fee["cents"]))) for fee in data["fees"]["each"]]
    rows.append(total("Total fees for this period", data["fees"]["total"], len(heads)))
    return section("fees", "Fees", table("", heads, rows))


def interest_of(data: Data) -> str:
    """Interest by type of transaction, and its sum."""
    rows = [(f"Interest charge on {name}",
             money(sum(one["interest"] for one in data["balances"]
                       if one["category"] == category))) for category, name in CATEGORIES]
    rows.append(("Total interest for this period", money(data["summary"]["interest"])))
    return section("interest", "Interest charged", pairs(rows, rows[-1][0]))


def year_of(data: Data) -> str:
    year = data["year_to_date"]
    rows = [(f"Total fees charged in {year['year']}", money(year["fees"])),
            (f"Total interest charged in {year['year']}", money(year["interest"]))]
    return section("year", f"{year['year']} totals year-to-date", pairs(rows))


# -- the calculation of interest -----------------------------------------------------------------


def name_of(one: Data) -> str:
    """A balance as a cardholder knows it."""
    name = dict(CATEGORIES)[one["category"]].capitalize()
    if one["kind"] != "vintage":
        name = "Promotional balance" if one["kind"] == "promo" else DEFERRED
    return f'{name} <span class="of">{plain(one["segment"])}</span>'


def rate_text(run: Data) -> str:
    """A rate, and where it comes from."""
    said = SOURCES[run["source"]]
    if run["index"] is not None:
        said += f": index {percent(run['index'])} plus {percent(run['margin'])}"
    return percent(run["rate"]) + (f' <span class="of">{said}</span>' if said else "")


def run_row(name: str, run: Data, average: str) -> str:
    """One rate with its days; the average is that of all days of the balance."""
    dates = f"{day(run['first'])} to {day(run['last'])} ({run['days']} days)"
    return row(cell("Type of balance", name, "") + cell("Dates", dates, "")
               + cell("Annual percentage rate", rate_text(run), "")
               + cell("Daily rate", daily(run["daily_rate_billionths"]))
               + cell("Sum of daily balances", money(run["balance_days"]))
               + cell("Average daily balance", average, "n" if average else "n gone")
               + cell("Interest charge", money(run["interest"])))


def rows_of(one: Data) -> list[str]:
    """The rates of a balance; where there are several, and their sum."""
    name, average = name_of(one), money(one["average_daily_balance"])
    at_end = f'<br><span class="of">{money(one["balance"])} at closing</span>'
    deferred = one["deferred_interest"] or []
    if len(one["rates"]) == 1 and not deferred and not one["interest_not_charged"]:
        return [run_row(name + at_end, one["rates"][0], average)]
    rows = [run_row(name, run, "") for run in one["rates"]]
    rows += [run_row(f"{name}, deferred interest now charged", run, "") for run in deferred]
    if one["interest_not_charged"]:
        rows.append(row(cell("Type of balance", f"{name}, not charged", "")
                        + '<td class="gone" role="cell" colspan="5"></td>'
                        + cell("Interest charge", money(-one["interest_not_charged"]))))
    rows.append(row(cell("Type of balance", f"{name}, all rates{at_end}", "")
                    + '<td class="gone" role="cell" colspan="4"></td>'
                    + cell("Average daily balance", average)
                    + cell("Interest charge", money(one["interest"])), "sum"))
    return rows


def promotion_text(one: Data) -> str:
    """From when until when a plan's rate is, and what comes after it."""
    plan = one["promotion"]
    rate, after = percent(plan["rate"]), percent(plan["rate_after"])
    time = f"from {day(plan['first'])} until {day(plan['last'])}"
    said = (f"The rate of the {name_of(one)} is {rate} {time}; after that it is {after}."
            if plan["kind"] == "promo" else
            f"Interest at {rate} on the {name_of(one)} is deferred {time}; after that the rate "
            f"is {after}.")
    return f"<p>{said}</p>"


def calculation_of(data: Data, issuer: Issuer) -> str:
    """Every rate that was applied, on what, and what it brought."""
    heads = (("Type of balance", "kind"), ("Dates", ""), ("Annual percentage rate (APR)", ""),
             ("Daily rate", "n"), ("Sum of daily balances", "n"), ("Average daily balance", "n"),
             ("Interest charge", "n"))
    rows = [line for one in data["balances"] for line in rows_of(one)]
    ends = [promotion_text(one) for one in data["balances"] if one["promotion"]]
    return section("calculation", "Interest charge calculation",
                   "<p>Your annual percentage rate (APR) is the annual interest rate on your "
                   f"account.</p>{table('', heads, rows)}{''.join(ends)}"
                   f"<h3>How we determined the balances</h3><p>{issuer.text('balances_text')}</p>")
