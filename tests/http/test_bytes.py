"""Requests byte by byte with their whole answers, none of which is carried out where it is cut off,
at whatever byte; and index rows and openings that follow them."""

from ..support.case import Case
from .talk import JSON, POST, TEXT, Talk, posted, whole

ROLL = posted(b'{"kind":"roll","day":"2024-01-28"}')
BAD, BAD_JSON = (whole("400 Bad Request", kind, "bad request\n") for kind in (TEXT, JSON))


def of_member(name: str) -> bytes:
    """The answer to a body with this member at fault."""
    return whole("422 Unprocessable Entity", JSON, '{"field":"%s"}' % name)


# To an empty ledger, which stays empty until the last of them.
EMPTY = (
    (b"GET /work HTTP/1.1\r\n\r\n", whole("200 OK", TEXT, "")),
    (b"DELETE /work HTTP/1.1\r\n\r\n", whole("405 Method Not Allowed", TEXT, "bad method\n")),
    (posted(b'{"kind":"charge","account":"h-1","key":"c1","day":"2023-12-29","place":"purchase",'
            b'"cents":1100}'), whole("409 Conflict", JSON, '{"name":"UnknownAccount","no":1}')),
    (b"GET /work HTTP/2.0\r\n\r\n", BAD),
    (b"GET /work HTTP/1.1\r\nContent-Length: 1\r\nContent-Length: 1\r\n\r\n", BAD),
    (POST + b"Transfer-Encoding: chunked\r\n\r\n", BAD_JSON),
    (POST + b"Content-Length: 1234567890\r\n\r\n", BAD_JSON),
    (POST + b"Content-Length: 16385\r\n\r\n",
     whole("413 Payload Too Large", JSON, "body too large\n")),
    (b"GET /accounts/!/entries HTTP/1.1\r\n\r\n", whole("404 Not Found", TEXT, "none\n")),
    (posted(b"{"), BAD_JSON),
    (posted(b"[]"), of_member("kind")),
    (posted(b'{"kind":"penalty","account":"a","key":"q","zz":1}'), of_member("zz")),
    (posted(b"[" * 127 + b"]" * 127), of_member("kind")),
    (posted(b"[" * 128 + b"]" * 128), BAD_JSON),
    (posted(b'{"kind":"roll","day":' + b"[" * 127 + b"]" * 127 + b"}"), BAD_JSON),
    (posted(b'{"kind":"penalty","account":"a","key":1e400}'), BAD_JSON),
    (posted(b'{"kind":"roll","day":"\\ud800"}'), BAD_JSON),
    *((ROLL[:count], b"") for count in range(len(ROLL))),
    (ROLL + b"GET", whole("200 OK", JSON, '{"ok":0}')),
)

OPENED = (b'"kind":"openvar","account":"v","key":"o","day":"2024-01-06","close":5,"cash":1949,'
          b'"transfer":1649,"penalty":2999,"floor":2500,"pct":100')
EARLIER = OPENED.replace(b"2024-01-06", b"2023-12-31")
PURCHASE = b',"purchase":1449'
INDEX = b'"kind":"index","day":"2024-01-01"'
# In one ledger, each with the status and the body of its answer.
FOLLOWING = (
    (OPENED + PURCHASE, "409 Conflict", '{"name":"DayAhead","no":6}'),
    (INDEX + b',"rate":550', "200 OK", '{"ok":0}'),
    (INDEX, "422 Unprocessable Entity", '{"field":"rate"}'),
    (INDEX + b',"rate":550,"account":"v"', "422 Unprocessable Entity", '{"field":"account"}'),
    (INDEX + b',"rate":"550"', "422 Unprocessable Entity", '{"field":"rate"}'),
    (b'"kind":"index","day":"2010-12-31","rate":550',
     "422 Unprocessable Entity", '{"field":"day"}'),
    (INDEX + b',"rate":10000', "409 Conflict", '{"name":"AmountRange","no":5}'),
    (b'"kind":"roll","day":"2024-01-10"', "200 OK", '{"ok":0}'),
    (b'"kind":"index","day":"2024-01-10","rate":550',
     "409 Conflict", '{"name":"PastRow","no":29,"value":"2024-01-10"}'),
    (OPENED, "422 Unprocessable Entity", '{"field":"purchase"}'),
    (EARLIER + PURCHASE, "409 Conflict", '{"name":"NoIndex","no":30}'),
    (OPENED + PURCHASE, "200 OK", '{"ok":1}'),
)


class Bytes(Case):
    def test_whole_answers_and_requests_cut_off(self) -> None:
        talk = Talk(self)
        for sent, answer in EMPTY:
            talk.exchange(sent, answer)
        talk.run("-")

    def test_index_rows_and_openings_that_follow_them(self) -> None:
        talk = Talk(self)
        for members, status, body in FOLLOWING:
            talk.exchange(posted(b"{%s}" % members), whole(status, JSON, body))
        talk.run("-")
