"""A month of an account and one request of each kind, posted and sent as lines: both are answered
alike and keep the same rows, and each answer is one that docs/openapi.json describes."""

from ..support.case import Case
from ..support.program import apply, run
from ..support.requests import answer_to
from ..support.rows import rows_of
from .month import month, statement
from .talk import Talk

# One line of each kind; some are refused.
KINDS = """holiday 2024-07-04
open k o 2024-01-29 28 1999 2499 2199 2999 2500 100
charge k c 2024-01-29 plan:3 1000
credit k r 2024-01-29 purchase 100
payment k p 2024-01-29 600 mail 500
return k t 2024-01-29 3
plan k n 2024-01-29 deferred 0 2024-08-28 3
notice k i 2024-01-29 purchase 2599 2024-03-20
lower k l 2024-01-29 cash 2399
penalty k y
review k v 2024-01-29 keep
dispute k d 2024-01-29 2 300
ack k a 2024-01-29 9
resolve k s 2024-01-29 9 0
askrefund k q 2024-01-29
refund k f 100
amend k m 2 2024-01-29 900
bill k b 1
openvar v o 2024-01-29 28 1449 1949 1649 2999 2500 100
feerow 2024-02-01 3100 4200
index 2024-02-01 550
roll 2024-01-30""".splitlines()


class Kinds(Case):
    def setUp(self) -> None:
        super().setUp()
        self.lined = self.at("lined.db")
        self.talk = Talk(self)
        lines = [*month(), *KINDS]
        replies = apply(self.lined, lines).lines
        self.assertEqual(len(replies), len(lines))
        for line, reply in zip(lines, replies):
            self.talk.post(line, answer_to(reply))

    def view(self, *words: str) -> str:
        return run([self.lined, *words]).text

    def test_each_kind_is_answered_as_its_line(self) -> None:
        talk = self.talk
        talk.post("charge h-1 c1 2023-12-29 purchase 1100", (200, '{"ok":2}'))
        self.look(talk)
        self.mistake(talk)
        talk.run(self.file)
        self.assertEqual(rows_of(self.file), rows_of(self.lined),
                         "the rows aren't those of the requests that were answered 200")

    def look(self, talk: Talk) -> None:
        """Each question: the month's statement, and what else the commands print."""
        account = "/accounts/h-1"
        talk.ask("GET", account, (200, apply(self.lined, ["show h-1"]).text))
        talk.ask("GET", f"{account}/entries", (200, self.view("export", "h-1")))
        talk.ask("GET", f"{account}/statements/1", (200, statement()))
        talk.ask("GET", f"{account}/cycles/1", (200, statement()))
        talk.ask("GET", "/work?now", (200, self.view("work")))

    def mistake(self, talk: Talk) -> None:
        """What isn't there, and what isn't a request."""
        talk.ask("GET", "/accounts/h-1/statements/2", (404, "none\n"))
        talk.ask("GET", "/accounts/nobody", (404, "none\n"))
        talk.ask("GET", "/accounts/h-1/", (404, "none\n"))
        talk.ask("DELETE", "/work", (405, "bad method\n"))
        talk.ask("POST", "/posts", (400, "bad request\n"), "{")
        talk.ask("POST", "/posts", (422, '{"field":"kind"}'), "[]")
        extra = '{"kind":"penalty","account":"a","key":"q","zz":1}'
        talk.ask("POST", "/posts", (422, '{"field":"zz"}'), extra)
