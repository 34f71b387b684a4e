"""What eight clients do with the accounts of a month: one post or question after the other, each
account by one client alone."""
import json
import random
import threading
import time
from http.client import HTTPConnection, HTTPException
from typing import Any, Protocol

from .parts import PATIENCE, SECONDS, Answer, Door, ask

Body = dict[str, Any]
Request = tuple[str, str, Body | None]
# when it was given, method, path, what was sent, status, and the text that came back
Told = tuple[int, str, str, str | None, int, str]

TERMS = {"purchase": 1999, "cash": 2499, "transfer": 2199, "penalty": 2999, "floor": 2500,
         "pct": 100}
PLACES = ("purchase", "purchase", "cash", "transfer")
WEIGHTS = {
    "charge": 30, "payment": 15, "credit": 5, "return": 2, "amend": 5, "dispute": 4, "ack": 3,
    "resolve": 2, "plan": 2, "notice": 1, "lower": 1, "penalty": 1, "review": 1, "askrefund": 2,
    "refund": 2, "bill": 6, "repeat": 4, "reuse": 2, "unfinished": 2, "look": 15,
}


class Month(Protocol):
    """What a client knows of its month."""

    day: str
    over: bool
    door: Door


class Account:
    """One account, and what its client knows of it."""

    def __init__(self, name: str, rng: random.Random) -> None:
        self.name, self.rng = name, rng
        self.opened = False
        self.keys = 0
        self.last: Body | None = None
        self.numbers: dict[str, list[int]] = {
            kind: [] for kind in ("charge", "payment", "credit", "dispute", "plan")}

    def next(self, day: str) -> Request:
        """The next request: method, path and body."""
        if not self.opened and self.rng.random() < 0.9:
            self.opened = True
            return self.post({"kind": "open", "day": day, "close": self.rng.randint(1, 28)} | TERMS)
        kind = self.rng.choices(list(WEIGHTS), list(WEIGHTS.values()))[0]
        if kind == "look":
            return self.look()
        if kind in ("repeat", "reuse") and self.last:
            is_other = kind == "reuse" and "day" in self.last
            return "POST", "/posts", self.last | ({"day": "2024-01-01"} if is_other else {})
        return self.post(getattr(self, f"make_{kind}", self.make_charge)(day))

    def post(self, members: Body) -> Request:
        self.keys += 1
        self.last = {"kind": members.pop("kind"), "account": self.name,
                     "key": f"k{self.keys}"} | members
        return "POST", "/posts", self.last

    def look(self) -> Request:
        end = self.rng.choice(("", "", "/entries", "/statements/1", "/cycles/1", "/cycles/x"))
        return "GET", f"/accounts/{self.name}{end}", None

    def target(self, *kinds: str) -> int:
        """The number of a post, mostly of one of these kinds."""
        numbers = [number for kind in kinds for number in self.numbers[kind]]
        if numbers and self.rng.random() < 0.9:
            return self.rng.choice(numbers)
        return self.rng.randint(1, 30)

    def cents(self) -> int:
        return self.rng.choice((0, self.rng.randint(1, 500), self.rng.randint(500, 90000),
                                self.rng.randint(500, 90000)))

    def some_day(self, day: str) -> str:
        """Today, or a day of the month that may not be there yet."""
        return self.rng.choice((day, day, day, f"2024-01-{self.rng.randint(1, 31):02}"))

    def make_charge(self, day: str) -> Body:
        place = f"plan:{self.target('plan')}" if self.numbers[
            "plan"] and self.rng.random() < 0.2 else self.rng.choice(PLACES)
        return {"kind": "charge", "day": self.some_day(day), "place": place, "cents": self.cents()}

    def make_credit(self, day: str) -> Body:
        return {"kind": "credit", "day": self.some_day(day), "place": self.rng.choice(PLACES),
                "cents": self.cents()}

    def make_payment(self, day: str) -> Body:
        return {"kind": "payment", "day": self.some_day(day), "minute": self.rng.randint(0, 1439),
                "channel": self.rng.choice(("mail", "online")), "cents": self.cents()}

    def make_return(self, day: str) -> Body:
        return {"kind": "return", "day": day, "target": self.target("payment")}

    def make_amend(self, day: str) -> Body:
        return {"kind": "amend", "target": self.target("charge", "payment", "credit"),
                "day": self.some_day(day), "cents": self.cents()}

    def make_dispute(self, day: str) -> Body:
        return {"kind": "dispute", "day": day, "target": self.target("charge"),
                "cents": self.cents()}

    def make_ack(self, day: str) -> Body:
        return {"kind": "ack", "day": day, "target": self.target("dispute")}

    def make_resolve(self, day: str) -> Body:
        return {"kind": "resolve", "day": day, "target": self.target("dispute"),
                "cents": self.rng.randint(0, 500)}

    def make_plan(self, day: str) -> Body:
        return {"kind": "plan", "day": day, "plan": self.rng.choice(("promo", "deferred")),
                "rate": 0, "end": f"2024-{self.rng.randint(7, 12):02}-{self.rng.randint(1, 28):02}",
                "after": 1999}

    def make_notice(self, day: str) -> Body:
        return {"kind": "notice", "day": day, "category": "purchase", "rate": 2599,
                "effective": "2025-03-20"}

    def make_lower(self, day: str) -> Body:
        return {"kind": "lower", "day": day, "category": self.rng.choice(PLACES),
                "rate": self.rng.randint(1000, 2400)}

    def make_penalty(self, _: str) -> Body:
        return {"kind": "penalty"}

    def make_review(self, day: str) -> Body:
        return {"kind": "review", "day": day, "finding": "keep"}

    def make_askrefund(self, day: str) -> Body:
        return {"kind": "askrefund", "day": day}

    def make_refund(self, _: str) -> Body:
        return {"kind": "refund", "cents": self.cents()}

    def make_bill(self, _: str) -> Body:
        return {"kind": "bill", "cycle": self.rng.choice((1, 1, 1, 2))}

    def make_unfinished(self, day: str) -> Body:
        return {"kind": "charge", "day": day, "cents": "100"}

    def answered(self, body: Body | None, status: int, text: str) -> None:
        if body and status == 200 and body["kind"] in self.numbers:
            self.numbers[body["kind"]].append(json.loads(text)["ok"])


class Client(threading.Thread):
    """Goes through its accounts again and again until the month is over. What isn't answered, or by
    502 to 504, is sent again."""

    def __init__(self, month: Month, names: list[str], seed: int) -> None:
        super().__init__(daemon=True)
        self.month = month
        self.accounts = [Account(name, random.Random(f"{seed} {name}")) for name in names]
        self.link: HTTPConnection | None = None
        self.answers: list[Told] = []
        self.sent_again = 0
        self.trouble: str | None = None

    def run(self) -> None:
        try:
            while not self.month.over:
                for account in self.accounts:
                    self.visit(account)
        except Exception as trouble:  # told by the main thread
            self.trouble = repr(trouble)

    def visit(self, account: Account) -> None:
        method, path, body = account.next(self.month.day)
        text = None if body is None else json.dumps(body, separators=(",", ":"))
        status, answer, headers = self.until_answered(method, path, text)
        account.answered(body, status, answer)
        self.answers.append((int(headers["Answered"]), method, path, text, status, answer))

    def until_answered(self, method: str, path: str, text: str | None) -> Answer:
        deadline = time.monotonic() + PATIENCE
        while time.monotonic() < deadline:
            try:
                self.link = self.link or HTTPConnection("127.0.0.1", self.month.door.port,
                                                        timeout=SECONDS)
                answer = ask(None, method, path, text, self.link)
                if answer[0] not in (502, 503, 504):
                    return answer
            except (OSError, HTTPException):
                if self.link:
                    self.link.close()
                self.link = None
            self.sent_again += 1
            time.sleep(0.2)
        raise RuntimeError(f"{method} {path} {text} isn't answered in {PATIENCE} seconds")
