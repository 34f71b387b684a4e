"""The rules that nodes name, each by its place in docs/RULES.md and its section of 12 CFR 1026."""

_PART = "12 CFR 1026"

# key -> (heading / bold name in docs/RULES.md, section)
RULES: dict[str, tuple[str, str]] = {
    "daily": ("Money and rates / Daily rate", f"{_PART}.14(b)"),
    "rounding": ("Money and rates / Interest", f"{_PART}.14(b)"),
    "portion": ("Money and rates / Part of a balance", ""),
    "cycles": ("Calendar / Cycles", f"{_PART}.2(a)(4)"),
    "due date": ("Calendar / Due dates", f"{_PART}.7(b)(11)(i)(A)"),
    "timely": ("Calendar / Timely statements", f"{_PART}.5(b)(2)(ii)(A)"),
    "business": ("Calendar / Business days", ""),
    "credit day": ("Calendar / Day of credit", f"{_PART}.10"),
    "entries": ("An account / Entries", ""),
    "debits": ("An account / Debits", f"{_PART}.11(a)(1)"),
    "charge place": ("An account / Where a charge goes", ""),
    "corrected": ("An account / The corrected list", ""),
    "effective": ("An account / Effective days", ""),
    "due payment": ("Statements and due dates / A due payment", f"{_PART}.5(b)(2)(ii)"),
    "met": ("Statements and due dates / Met", f"{_PART}.10(a)"),
    "caps": ("Statements and due dates / No correction raises what was issued", ""),
    "issued": ("Statements and due dates / Issued statements stay", f"{_PART}.7(b)"),
    "statement": ("What a statement shows", f"{_PART}.7(b)"),
    "previous": ("What a statement shows", f"{_PART}.7(b)(1)"),
    "moves": ("What a statement shows", f"{_PART}.7(b)(2), (3), (6)"),
    "average": ("What a statement shows", f"{_PART}.7(b)(5)"),
    "sums": ("What a statement shows", f"{_PART}.7(b)(6)"),
    "balance": ("What a statement shows", f"{_PART}.7(b)(10)"),
    "rate line": ("What a statement shows", f"{_PART}.7(b)(4)"),
    "warning": ("What a statement shows", f"{_PART}.7(b)(11)(i)(B)"),
    "deferred line": ("What a statement shows", f"{_PART}.7(b)(14)"),
    "minimum": ("What a statement shows / Minimum payment", f"{_PART}.7(b)(13)"),
    "past due": ("What a statement shows / Past due", f"{_PART}.7(b)(13)"),
    "repayment": ("Repayment", f"{_PART}.7(b)(12)"),
    "notice": ("Rates / Notices", f"{_PART}.55(b)(3)"),
    "penalty notice": ("Penalty rates: notice", f"{_PART}.9(g)"),
    "credit": ("Credit balances / Credit", f"{_PART}.11(a)(1)"),
    "held": ("Billing errors / Held apart", f"{_PART}.13(d)(1)"),
    "resolved": ("Billing errors / Corrected", f"{_PART}.13(e), (f)"),
    "day row": ("Interest / The row of a day", f"{_PART}.14(b)"),
    "interest": ("Interest / Once a cycle", f"{_PART}.14(b)"),
    "bearing": ("Interest / What bears it", f"{_PART}.14(b)"),
    "fee when": ("Penalty fees / When", f"{_PART}.52(b)"),
    "fee amount": ("Penalty fees / How much", f"{_PART}.52(b)(2)(i)"),
    "one fee": ("Penalty fees / One", f"{_PART}.52(b)(2)(ii)"),
    "first amount": ("Penalty fees / First and repeat", f"{_PART}.52(b)(1)(ii)(A)"),
    "tier": ("Penalty fees / First and repeat", f"{_PART}.52(b)(1)(ii)(B)"),
    "table": ("Penalty fees / The table", f"{_PART}.52(b)(1)(ii)"),
    "put back": ("Penalty fees / A returned payment", f"{_PART}.52(b)"),
    "minimum part": ("Allocation / The minimum part", ""),
    "excess": ("Allocation / The excess", f"{_PART}.53(a)"),
    "ending plan": ("Allocation / Deferred interest", f"{_PART}.53(b)(1)(i)"),
    "no balance": ("Allocation / No balance left", f"{_PART}.11(a)(1)"),
    "merchant": ("Allocation / A merchant's credit", ""),
    "grace amount": ("Grace period / The grace amount", f"{_PART}.54"),
    "paid": ("Grace period / Paid", f"{_PART}.54"),
    "purchases": ("Grace period / Purchases", f"{_PART}.54(a)(1)"),
    "rate": ("Rates", f"{_PART}.55(a)"),
    "index": ("Rates / Rates that follow an index", f"{_PART}.55(b)(2)"),
    "lowered": ("Rates / Lowered rates", f"{_PART}.55"),
    "plan": ("Rates / Plans", f"{_PART}.55(b)(1)"),
    "deferred": ("Rates / Deferred interest", f"{_PART}.55(b)(1)"),
    "sixty": ("Rates / Sixty days late", f"{_PART}.55(b)(4)"),
    "penalty": ("Rates / The penalty rate", f"{_PART}.55(b)(4)"),
    "penalty end": ("Rates / Its end", f"{_PART}.55(b)(4)(ii)"),
}

# rule -> the ledger's sentence and the regulation's, both as RULES has them, where the two part
PARTS: dict[str, tuple[str, str]] = {
    "held": (
        "What is held is the least of the claim, the charge and the balance of its segment.",
        "Finance and other charges that are related to the disputed amount may be withheld "
        "with it (.13(d)(1))."),
    "put back": (
        "The part of a returned payment that had gone to a credit balance is put back on the "
        "newest vintage of purchases, whatever used the credit up since.",
        "A balance isn't to bear more than the rate that it was charged at (.55(a))."),
    "tier": (
        "A fee at the repeat amount doesn't begin the six cycles anew.",
        "An earlier late payment may count also where its fee was at the repeat amount "
        "(comment 52(b)(1)(ii)-1)."),
    "one fee": (
        "One penalty fee for a due date, whatever happened.",
        "One for a single event or transaction (.52(b)(2)(ii))."),
    "penalty end": (
        "A penalty rate ends with the sixth due date that was met, on every balance.",
        "It has to end after six such payments, for the balances from before the 15th day "
        "after its notice; that may be a month later (.55(b)(4)(ii))."),
    "caps": (
        "No correction raises what an issued statement charged or asked for.",
        ""),
    "business": (
        "Mail that makes up for a closed due date is that of the next Monday to Friday that is "
        "no loaded holiday, by 17:00; after 17:00 it counts on the next day.",
        "The next day is the first on which the issuer accepts or receives mail, which may be "
        "a Saturday; and a payment of that day isn't late for any purpose (.10(d)(1))."),
    "notice": (
        "The vintage of a notice begins on the 15th day after the notice, also where that day "
        "lies in the account's first year.",
        "What is charged in the first year keeps its rate (.55(b)(3)(iii), comment 55(a)-1)."),
    "plan": (
        "A plan's six months count from the day that its line gives.",
        "They count from the disclosure of the plan's terms or from its first use (comment "
        "55(b)(1)-2)."),
    "timely": (
        "A statement counts as issued, and a penalty rate as announced, on the day on which "
        "its line is accepted.",
        "These count from mailing or delivery, or from the day on which the account can first "
        "be used (.5(b)(2)(ii), .9(c)(2), (g), .55(b)(3)(iii))."),
    "sixty": (
        "A payment that is credited up to the day of the `penalty`, though more than 60 days "
        "after the due date, bars the penalty rate.",
        "The rate is allowed once 60 days have passed without it (.55(b)(4))."),
    "paid": (
        "A payment that is returned after its due date leaves the grace period as it was, and "
        "the days from its payment to its return bear no interest on it.",
        "Interest may be adjusted for a payment that is returned (.54(b)(2))."),
    "average": (
        "A RATE line has the rate of the closing day alone, also where another one was in effect "
        "on earlier days.",
        "Where a rate varied, each that was in effect in the cycle is on the statement, with "
        "the balance to which it was applied (.7(b)(4), comment -1.ii; .7(b)(5))."),
}
