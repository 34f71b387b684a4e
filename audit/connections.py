"""The answer to the bytes of one connection over HTTP."""

import re
from collections.abc import Callable
from typing import NamedTuple

from .heads import Head, NoHead, Partial, read_head
from .json_text import Json, JsonError, Number, read_json, string_text
from .lines import FORMS, read_name, read_number
from .machine import Machine
from .product import WORDS_TO_COME
from .refusals import Refused
from .rows import encode
from .views import view
from .words import WORDS, Request, Value, request_of

HEAD_LIMIT = 8_192
BODY_LIMIT = 16_384
ROUTES = {"statements": "statement", "cycles": "restate"}
PHRASES = {200: "OK", 400: "Bad Request", 404: "Not Found", 405: "Method Not Allowed",
           409: "Conflict", 413: "Payload Too Large", 422: "Unprocessable Entity",
           431: "Request Header Fields Too Large", 503: "Service Unavailable",
           507: "Insufficient Storage"}


class Answer(NamedTuple):
    status: int
    body: bytes
    json: bool

    def to_bytes(self) -> bytes:
        kind = "application/json" if self.json else "text/plain; charset=utf-8"
        head = (f"HTTP/1.1 {self.status} {PHRASES[self.status]}\r\nContent-Type: {kind}\r\n"
                f"Content-Length: {len(self.body)}\r\nConnection: close\r\n\r\n")
        return head.encode("ascii") + self.body


class NotARequest(NamedTuple):
    """The member that makes a JSON body no request."""
    field: str


def json_request(value: Json, unknown: frozenset[str] = WORDS_TO_COME) -> Request | NotARequest:
    """The request of a JSON value: first the kind, then the fields in the table's order, then
    the least member by bytes that isn't a field."""
    if not isinstance(value, dict):
        return NotARequest("kind")
    kind = value.get("kind")
    if not isinstance(kind, str) or kind not in WORDS or kind in unknown:
        return NotARequest("kind")
    values: dict[str, Value] = {}
    for name, form in WORDS[kind][1]:
        given = value.get(name)
        found: Value | None = None
        if form == "number":
            if isinstance(given, Number):
                found = read_number(given.text.encode())
        elif isinstance(given, str):
            found = FORMS[form](given.encode("utf-8"))
        if found is None:
            return NotARequest(name)
        values[name] = found
    others = [m for m in value if m != "kind" and m not in values]
    if others:
        return NotARequest(min(others, key=lambda m: m.encode("utf-8")))
    return request_of(kind, values)


def _match(path: str) -> tuple[str, str, list[str]] | None:
    """The route of a path with its method and its parameters."""
    parts = path.split("/")
    if parts == ["", "posts"]:
        return "posts", "POST", []
    if parts == ["", "work"]:
        return "work", "GET", []
    if len(parts) >= 3 and parts[:2] == ["", "accounts"] and parts[2]:
        rest = parts[3:]
        if not rest:
            return "show", "GET", [parts[2]]
        if rest == ["entries"]:
            return "export", "GET", [parts[2]]
        if len(rest) == 2 and rest[0] in ("statements", "cycles") and rest[1]:
            return ROUTES[rest[0]], "GET", [parts[2], rest[1]]
    return None


def _refusal_body(refused: Refused) -> str:
    body = f'{{"name":"{refused.name}","no":{refused.number}'
    if refused.value is not None:
        value = refused.value_text()
        body += f',"value":"{value}"' if refused.value_is_day else f',"value":{value}'
    return body + "}"


class _Wrong(Exception):
    """The first thing that is wrong with a request, as its status and body."""

    def __init__(self, status: int, body: str):
        self.status, self.body = status, body


def _body_length(head: Head) -> int:
    """The length of the body that the head announces."""
    lengths = [v for n, v in head.headers if n.lower() == b"content-length"]
    if any(n.lower() == b"transfer-encoding" for n, _ in head.headers) or len(lengths) > 1:
        raise _Wrong(400, "bad request\n")
    if lengths and not re.fullmatch(rb"[0-9]{1,9}", lengths[0]):
        raise _Wrong(400, "bad request\n")
    return int(lengths[0]) if lengths else 0


def _wanted(head: Head, path: str, length: int) -> tuple[str, str | None, int | None]:
    """The route of a request with its account and its cycle."""
    route = _match(path)
    if route is None:
        raise _Wrong(404, "none\n")
    name, method, params = route
    account = read_name(params[0].encode("utf-8")) if params else None
    cycle = read_number(params[1].encode("utf-8")) if len(params) > 1 else None
    if (params and account is None) or (len(params) > 1 and cycle is None):
        raise _Wrong(404, "none\n")
    if head.method != method:
        raise _Wrong(405, "bad method\n")
    if length > BODY_LIMIT:
        raise _Wrong(413, "body too large\n")
    return name, account, cycle


def serve(machine: Machine, data: bytes,
          keep: Callable[[bytes], None] = lambda body: None) -> Answer | None:
    """The answer to the bytes of a connection, None where they end inside the request.

    `keep` takes the spelling of a newly accepted request.
    """
    try:
        head = read_head(data[:HEAD_LIMIT])
    except NoHead:
        return Answer(400, b"bad request\n", False)
    except Partial:
        return Answer(431, b"head too large\n", False) if len(data) >= HEAD_LIMIT else None
    path = head.target.split("?")[0]
    json = head.method == "POST" and path == "/posts"
    try:
        length = _body_length(head)
        name, account, cycle = _wanted(head, path, length)
        body = data[head.length:head.length + length]
        if len(body) < length:
            return None
        text = (_post(machine, body, keep) if name == "posts"
                else _view(machine, name, account, cycle))
        return Answer(200, text.encode("utf-8"), json)
    except _Wrong as wrong:
        return Answer(wrong.status, wrong.body.encode("utf-8"), json)


def _post(machine: Machine, body: bytes, keep: Callable[[bytes], None]) -> str:
    """The body of the answer to a post that was accepted."""
    try:
        value = read_json(body)
    except JsonError:
        raise _Wrong(400, "bad request\n") from None
    request = json_request(value)
    if isinstance(request, NotARequest):
        raise _Wrong(422, '{"field":' + string_text(request.field) + "}")
    reply = machine.apply(request)
    if reply.refused:
        raise _Wrong(409, _refusal_body(reply.refused))
    if reply.new:
        keep(encode(request))
    return '{"ok":%d}' % (reply.number or 0)


def _view(machine: Machine, name: str, account: str | None, cycle: int | None) -> str:
    """The text of a view."""
    text = view(machine, name, account, cycle)
    if text is None:
        raise _Wrong(404, "none\n")
    return text
