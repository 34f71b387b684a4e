"""An issuer's files for tests."""

TEXTS = {
    "name": "Harbor Bank", "telephone": "1-800-555-0100", "website": "www.harbor.example",
    "counseling_telephone": "1-800-555-0177",
    "balances_text": "We add up the balances of each day and divide by the days of the cycle.",
    "errors_text": "Write to {name}, {inquiry_address}, within 60 days after the error appeared "
                   "on your statement, or call {telephone}.",
    "payments_text": "Payments received by 5 p.m. are credited on that day.",
    "changes_text": "You may close your account before these changes take effect."}
LINES = {"address": ["1 Harbor Street", "Portland, ME 04101"],
         "payment_address": ["PO Box 100", "Portland, ME 04101"],
         "inquiry_address": ["PO Box 200", "Portland, ME 04101"]}


def quoted(text: str) -> str:
    return '"' + text.replace("\\", "\\\\").replace('"', '\\"') + '"'


def toml(**changed: str | None) -> str:
    """ISSUER.toml; a text may be another one, or left out by None."""
    found: dict[str, str | None] = dict(TEXTS)
    found.update(changed)
    lines = [f"{key} = {quoted(text)}" for key, text in found.items() if text is not None]
    lines += [f"{key} = [{', '.join(map(quoted, block))}]" for key, block in LINES.items()]
    return "".join(f"{line}\n" for line in lines)


NAMES = "account,name,line1,line2,line3,line4\n"
NOTES = "account,key,text\n"
