"""A statement as a page that a cardholder reads: nothing is loaded from elsewhere."""

from .issued import Data
from .issuer import Issuer
from .markup import (STYLE, day, day_words, dollars, money, pairs, percent, plain, section,
                     words)
from .tables import (CATEGORIES, DEFERRED, calculation_of, fees_of, interest_of,
                     transactions_of, year_of)

_POLICY = "default-src 'none'; style-src 'unsafe-inline'; img-src data:"
_SUMMARY = (("payments", "Payments"), ("other_credits", "Other credits"),
            ("purchases", "Purchases"), ("cash_advances", "Cash advances"),
            ("transfers", "Balance transfers"), ("returned_payments", "Returned payments"),
            ("refunds", "Credit balance paid out"), ("fees", "Fees charged"),
            ("interest", "Interest charged"))
_RARE = ("returned_payments", "refunds")


def lines_of(lines: list[str]) -> str:
    return "<br>".join(words(line) for line in lines)


def head_of(data: Data, issuer: Issuer) -> str:
    """Who writes to whom, about which cycle."""
    to, period = data["addressee"], data["period"]
    name = to["name"] if to else "[name]"
    lines = to["lines"] if to else ["[address]"]
    return (f"<header><div><h1>{issuer.text('name')}</h1><p>{lines_of(issuer.block('address'))}"
            f"</p></div><div><p><strong>Account {plain(data['account'])}</strong>, statement "
            f"{data['cycle']}</p><p>{day(period['first'])} to {day(period['closing'])}, "
            f"{period['days']} days in billing cycle</p><p>Issued on {day(data['issued'])}</p>"
            f"</div><address><strong>{words(name)}</strong><br>{lines_of(lines)}</address>"
            f"<div><p>Questions? Call {issuer.text('telephone')}, or see "
            f"{issuer.text('website')}</p><p class=\"small\">Billing inquiries: "
            f"{', '.join(words(line) for line in issuer.block('inquiry_address'))}</p></div>"
            "</header>")


def balance_text(cents: int) -> str:
    return money(cents) + (" (credit balance)" if cents < 0 else "")


def summary_of(data: Data) -> str:
    """From the previous balance to the new one."""
    sums = data["summary"]
    rows = [("Previous balance", balance_text(sums["previous_balance"]))]
    if sums["earlier_corrections"] or data["corrections"]:
        rows.append(("Corrections of earlier statements", money(sums["earlier_corrections"])))
    for group, name in _SUMMARY:
        if group in _RARE and not sums[group]:
            continue
        rows.append((name, money(sums[group])))
        if group == "purchases" and sums["plan_purchases"]:
            rows.append(('<span class="of">of these on promotional plans</span>',
                         money(sums["plan_purchases"])))
    rows.append(("New balance", balance_text(sums["new_balance"])))
    out = pairs(rows, "New balance")
    more = [("Past due amount", money(data["payment"]["past_due"]))]
    if sums["in_dispute"]:
        more.append(("In dispute, part of the new balance", money(sums["in_dispute"])))
    more.append(("Statement closing date", day(data["period"]["closing"])))
    more.append(("Days in billing cycle", str(data["period"]["days"])))
    if data["period"]["next_closing"]:
        more.append(("Next statement closing date", day(data["period"]["next_closing"])))
    return section("summary", "Summary of account activity", out + pairs(more))


def payment_of(data: Data, issuer: Issuer) -> str:
    """What to pay, by when, and the two warnings."""
    sums, payment = data["summary"], data["payment"]
    due = day(payment["due"]) if payment["due"] else "no payment is due"
    if payment["due"] and not payment["minimum"]:
        due += " (no payment is due)"
    rows = [("New balance", balance_text(sums["new_balance"])),
            ("Minimum payment due", money(payment["minimum"])), ("Payment due date", due)]
    out = f'<div class="due">{pairs(rows)}</div>'
    if payment["grace_by"] and payment["grace_amount"]:
        out += (f"<p>To keep your grace period on purchases, pay {money(payment['grace_amount'])} "
                f"by {day(payment['grace_by'])}.</p>")
    if payment["late"]:
        out += ('<p class="warn"><strong>Late payment warning:</strong> If we do not receive your '
                "minimum payment by the date listed above, you may have to pay a late fee of up "
                f"to {money(payment['late']['fee_up_to'])}, and your APRs may be increased up to "
                f"the penalty APR of {percent(payment['late']['rate_up_to'])}.</p>")
    out += repayment_of(data["repayment"]["disclosed"], issuer)
    where = ", ".join(words(one) for one in issuer.block("payment_address"))
    out += f"<p>Send payments to {where}. {issuer.text('payments_text')}</p>"
    return section("payment", "Payment information", out)


def repayment_of(disclosed: Data, issuer: Issuer) -> str:
    """The warning about minimum payments, after forms G-18(C)(1) to (3)."""
    kind = disclosed["text"]
    if kind == "none":
        return ""
    said = ("Even if you make no more charges using this card, if you make only the minimum "
            "payment each month we estimate you will never pay off the balance shown on this "
            "statement." if kind == "never" else
            "If you make only the minimum payment each period, you will pay more in interest and "
            "it will take you longer to pay off your balance.")
    rows = []
    if disclosed["time"]:
        time = disclosed["time"]
        unit = time["unit"][:-1] if time["count"] == 1 else time["unit"]
        rows.append(("Only the minimum payment", f"{time['count']} {unit}",
                     dollars(disclosed["minimum_total"])))
    if disclosed["payment"] is not None:
        saved = (f" (Savings={dollars(disclosed['savings'])})" if disclosed["savings"] is not None
                 else "")
        rows.append((dollars(disclosed["payment"]), "3 years",
                     dollars(disclosed["payment_total"]) + saved))
    body = "".join(f'<tr><th scope="row">{pay}</th><td>{time}</td><td class="n">{total}</td></tr>'
                   for pay, time, total in rows)
    return (f'<div class="warn"><p><strong>Minimum payment warning:</strong> {said} For example:'
            '</p><table><thead><tr><th scope="col">If you make no additional charges using this '
            'card and each month you pay</th><th scope="col">You will pay off the balance shown '
            'on this statement in about</th><th scope="col" class="n">And you will end up paying '
            f"an estimated total of</th></tr></thead><tbody>{body}</tbody></table><p>For "
            "information about credit counseling services, call "
            f"{issuer.text('counseling_telephone')}.</p></div>")


def deferred_of(data: Data) -> str:
    """What to pay in full, and by when, so that no deferred interest is charged."""
    if not data["deferred"]:
        return ""
    return section("deferred", "Deferred interest", "".join(
        f"<p>{DEFERRED} <span class=\"of\">{plain(one['segment'])}</span>: "
        f"{deferred_text(one, data['period']['closing'])}</p>" for one in data["deferred"]))


def deferred_text(one: Data, closing: str) -> str:
    """What to do about a plan; or, where its time ended with the cycle, what came of it."""
    by, balance, accrued = day(one["pay_in_full_by"]), money(one["balance"]), money(one["accrued"])
    if one["pay_in_full_by"] > closing:
        return (f"pay the balance of {balance} in full by {by}, and the interest deferred so far, "
                f"{accrued}, is not charged.")
    return (f"the time to pay it in full ended on {by}. The balance at closing is {balance}. The "
            f"interest deferred until then was {accrued}; what is charged of it stands in the "
            "interest charge calculation.")


def changes_of(data: Data, issuer: Issuer) -> str:
    """Rates that are to take effect."""
    names = dict(CATEGORIES)
    said = [f"<li>From {day(one['effective'])} the APR for {names[one['category']]} is "
            f"{percent(one['rate'])}, for transactions made on or after "
            f"{day(one['charges_from'])}. Notice was given on {day(one['given'])}.</li>"
            for one in data["notices"]]
    said += [f"<li>From {day(one['effective'])} the penalty APR of {percent(one['rate'])} applies. "
             f"Notice was given on {day(one['given'])}.</li>" for one in data["penalties"]]
    if not said:
        return ""
    return section("changes", "Important changes to your account terms",
                   f"<ul>{''.join(said)}</ul><p>{issuer.text('changes_text')}</p>")


def corrections_of(data: Data) -> str:
    """The posts behind the corrections of earlier statements."""
    if not data["corrections"]:
        return ""
    names = {"amend": "Correction", "resolve": "Result of a dispute", "return": "Returned payment"}
    rows = []
    for one in data["corrections"]:
        of = f" of {plain(one['target_key'])}" if one["target_key"] else ""
        note = f", {words(one['note'])}" if one["note"] is not None else ""
        rows.append((f"{names.get(one['kind'], plain(one['kind'].capitalize()))}{of}{note}, "
                     f"reference {plain(one['key'])}, dated {day(one['own_day'])}, entered "
                     f"{day(one['accepted'])}", money(one["changed"])))
    rows.append(("Total corrections", money(data["summary"]["earlier_corrections"])))
    return section("corrections", "Corrections of earlier statements", pairs(rows, rows[-1][0]))


def disputes_of(data: Data) -> str:
    """What is in dispute."""
    if not data["disputes"]:
        return ""
    rows = [(f"Charge {plain(one['charge_key'])}, disputed on {day(one['day'])} (reference "
             f"{plain(one['key'])}), for {money(one['claimed'])}", money(one["held"]))
            for one in data["disputes"]]
    rows.append(("Total in dispute", money(data["summary"]["in_dispute"])))
    return section("disputes", "Amounts in dispute",
                   "<p>You do not have to pay these amounts while we look into them. No interest "
                   f"is charged on them meanwhile.</p>{pairs(rows, rows[-1][0])}")


def footer_of(data: Data) -> str:
    """What each printed page has at its foot: whose statement it is, and which of its pages."""
    closing = day_words(data["period"]["closing"])
    said = f"Account {data['account']}, statement {data['cycle']}, closed on {closing}"
    return (f'@page{{@bottom-left{{content:"{said}"}}'
            '@bottom-right{content:"Page " counter(page) " of " counter(pages)}}')


def page_of(data: Data, issuer: Issuer) -> str:
    """The page of a statement."""
    title = f"Statement {data['cycle']} of account {data['account']}"
    return "".join([
        '<!doctype html>\n<html lang="en"><head><meta charset="utf-8">'
        f'<meta http-equiv="Content-Security-Policy" content="{_POLICY}">'
        '<meta name="viewport" content="width=device-width,initial-scale=1">'
        f'<link rel="icon" href="data:,"><title>{plain(title)}</title>'
        f"<style>{STYLE}{footer_of(data)}</style>"
        f"</head><body>{head_of(data, issuer)}<main>",
        f'<div class="pair">{summary_of(data)}{payment_of(data, issuer)}</div>',
        deferred_of(data), changes_of(data, issuer), disputes_of(data), corrections_of(data),
        transactions_of(data), fees_of(data),
        f'<div class="pair">{interest_of(data)}{year_of(data)}</div>',
        calculation_of(data, issuer),
        section("errors", "What to do if you think you find a mistake on your statement",
                f"<p>{issuer.text('errors_text')}</p>"), "</main></body></html>\n"])
