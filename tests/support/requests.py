"""Requests: the fields of each word, a line as JSON, and the answer over HTTP of a reply line."""

import json

FIELDS = {
    "roll": "day", "holiday": "day", "feerow": "day first repeat", "index": "day rate",
    "open": "account key day close purchase cash transfer penalty floor pct",
    "openvar": "account key day close purchase cash transfer penalty floor pct",
    "charge": "account key day place cents", "credit": "account key day place cents",
    "payment": "account key day minute channel cents", "return": "account key day target",
    "plan": "account key day plan rate end after",
    "notice": "account key day category rate effective",
    "lower": "account key day category rate", "penalty": "account key",
    "review": "account key day finding", "dispute": "account key day target cents",
    "ack": "account key day target", "resolve": "account key day target cents",
    "askrefund": "account key day", "refund": "account key cents",
    "amend": "account key target day cents", "bill": "account key cycle",
}
NUMBERS = set("first repeat close purchase cash transfer penalty floor pct minute cents rate "
              "after target cycle".split())
SHARED = ("roll", "holiday", "feerow", "index")
HEADER = "account,key,kind,day,place,cents,minute,channel"


def body_of(line: str) -> str:
    """A request line as the body of a post."""
    word, *values = line.split(" ")
    members = zip(FIELDS[word].split(), values, strict=True)
    fields = {name: int(value) if name in NUMBERS else value for name, value in members}
    return json.dumps({"kind": word} | fields, separators=(",", ":"))


def answer_to(reply: str) -> tuple[int, str]:
    """The status and the body over HTTP of a reply line, `ok` or `no`."""
    word, *rest = reply.split(" ")
    if word == "ok":
        return 200, '{"ok":%s}' % (rest[0] if rest else "0")
    value = ""
    if len(rest) > 2:
        is_number = rest[2].lstrip("-").isdigit()
        value = ',"value":' + (rest[2] if is_number else f'"{rest[2]}"')
    return 409, '{"name":"%s","no":%s%s}' % (rest[1], rest[0], value)
