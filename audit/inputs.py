"""Generated CSV inputs and connections, made of generated request lines.

Both are the same for the same seed.  Most of them are good; the others have
the faults that the formats name.
"""

import random

from .csv_text import HEADER
from .days import day_text
from .generate import generate
from .json_text import string_text
from .lines import read_line
from .words import AMENDABLE, WORDS, Request


def _requests(seed: int, n: int, accounts: int) -> list[Request]:
    items = [read_line(line.encode(), frozenset()) for line in generate(seed, n, accounts)]
    return [item for item in items if isinstance(item, Request)]


def _field(r: Request, name: str, form: str) -> str:
    """The text of a field as in a request line."""
    value = getattr(r, name)
    if form == "day":
        return day_text(value)
    if form == "place":
        return value.category or f"plan:{value.plan}"
    return str(value)


def _fields(r: Request) -> dict[str, str]:
    return {name: _field(r, name, form) for name, form in WORDS[r.word][1]}


# -- CSV -----------------------------------------------------------------------------------

def csv_bytes(seed: int, n: int, accounts: int = 3) -> bytes:
    """One CSV input of the charges, credits and payments of n generated lines."""
    draw = random.Random(seed)
    header = [name.decode() for name in HEADER]
    if draw.random() < 0.1:
        header[draw.randrange(8)] = draw.choice(("", "Key", "cents "))
    records = [header]
    for r in _requests(seed, n, accounts):
        if r.word in AMENDABLE:
            found = _fields(r) | {"kind": r.word}
            records.append(_faulty(draw, [found.get(name.decode(), "") for name in HEADER]))
    end = draw.choice(("\n", "\r\n", "\r"))
    text = ""
    for record in records:
        text += ",".join(_quoted(draw, field) for field in record) + end
        if draw.random() < 0.03:
            text += draw.choice(("\n", "\r\n\n", "\r"))
    if draw.random() < 0.3:
        text = text[:-len(end)]
    return text.encode()


def _faulty(draw: random.Random, record: list[str]) -> list[str]:
    kind = draw.randrange(100)
    place = draw.randrange(8)
    if kind < 4:
        return record[:place]
    if kind < 6:
        return record + [draw.choice(("", "x"))]
    if kind < 12:
        record[place] = draw.choice(("", "x", "0", "01", "fee", "2024-02-30", "cash", " ",
                                     'a"b', "a,b", "online", "1000000000000"))
    return record


def _quoted(draw: random.Random, field: str) -> str:
    if '"' in field or "," in field or draw.random() < 0.05:
        return '"' + field.replace('"', '""') + '"' + draw.choice(("", "", "", "x"))
    return field


# -- connections ---------------------------------------------------------------------------

def connections(seed: int, n: int, accounts: int = 3) -> list[bytes]:
    """The bytes of one connection per generated request, with views between them."""
    draw = random.Random(seed)
    out = []
    for r in _requests(seed, n, accounts):
        out.append(_cut(draw, _post(draw, _body(draw, r))))
        if draw.random() < 0.3:
            out.append(_cut(draw, _view(draw, r.account or "a")))
        if draw.random() < 0.05:
            out.append(_strange(draw))
    return out


def _value(draw: random.Random, r: Request, name: str, form: str) -> str:
    """The JSON text of a field, now and then of another form."""
    text = _field(r, name, form)
    kind = draw.randrange(200)
    if kind == 0:
        return draw.choice(("null", "true", "[]", "{}", "-1", "1.0", "1e2", "-0", '""', '"x"',
                            "1000000000000", "123456789012345678901234567890", '"2024-02-30"'))
    if form == "number":
        return text if kind != 1 else f'"{text}"'
    if kind < 4:  # an escape of the first letter
        return f'"\\u{ord(text[0]):04x}{text[1:]}"'
    return string_text(text)


def _body(draw: random.Random, r: Request) -> bytes:
    members = [("kind", string_text(r.word))]
    members += [(name, _value(draw, r, name, form)) for name, form in WORDS[r.word][1]]
    kind = draw.randrange(100)
    if kind < 10:
        draw.shuffle(members)
    elif kind == 10:
        members.pop(draw.randrange(len(members)))
    elif kind == 11:
        members.append((draw.choice(("zz", "a", "\u00e9", 'q"', "Kind", "minute")), "1"))
    elif kind == 12:
        members.insert(0, draw.choice(members)[:1] + ("5",))
    elif kind == 13:
        members.append(draw.choice(members)[:1] + ("5",))
    space = draw.choice(("", "", "", " ", "\n\t"))
    text = "{" + space + ("," + space).join(
        f"{string_text(name)}{space}:{space}{value}" for name, value in members) + space + "}"
    if kind == 14:
        text = draw.choice((text[:-1], text + "x", "[" + text + "]", "", "[" * 200, '{"a":1e999}',
                            '{"kind":"\\ud800"}', "[]", "5", text.replace(":", ";", 1),
                            "\ufeff" + text, text + " \r\n"))
    return text.encode()


def _post(draw: random.Random, body: bytes) -> bytes:
    kind = draw.randrange(100)
    end = b"\n" if kind < 5 else b"\r\n"
    length = b"%d" % len(body)
    if 5 <= kind < 8:
        length = draw.choice((b"0" + length, b"16385", b"1234567890", b"", b"x", b"+1", b"0"))
    name = draw.choice((b"Content-Length", b"content-length", b"CONTENT-LENGTH"))
    lines = [b"POST /posts HTTP/1.1", b"Host: localhost", name + b": " + length]
    if kind == 8:
        lines.insert(2, b"Transfer-Encoding: chunked")
    elif kind == 9:
        lines.append(name + b": " + length)
    elif kind == 10:
        lines[0] = draw.choice((b"POST /posts HTTP/1.0", b"POST /posts HTTP/2.0",
                                b"post /posts HTTP/1.1",
                                b"POST /posts/ HTTP/1.1", b"POST /posts?x=1 HTTP/1.1",
                                b"PUT /posts HTTP/1.1", b"POST  /posts HTTP/1.1"))
    return end.join(lines) + end + end + body


def _view(draw: random.Random, account: str) -> bytes:
    name = draw.choice((account, account, account, "nobody", "!", "", "a%20b"))
    cycle = draw.choice(("1", "2", "3", "9", "0", "01", "999999999999", "1000000000000", "x"))
    path = draw.choice((f"/accounts/{name}", f"/accounts/{name}/entries",
                        f"/accounts/{name}/statements/{cycle}", f"/accounts/{name}/cycles/{cycle}",
                        "/work", "/work?now", "/", "/accounts", f"/accounts/{name}/", "/posts"))
    method = draw.choice(("GET",) * 8 + ("HEAD", "DELETE"))
    return f"{method} {path} HTTP/1.1\r\nHost: localhost\r\n\r\n".encode()


def _strange(draw: random.Random) -> bytes:
    many = b"".join(b"h%d: x\r\n" % i for i in range(draw.choice((63, 64, 65))))
    return draw.choice((
        b"", b"\r\n", b"\x00", b"GET", b"GET /work HTTP/1.1\r\n" + many + b"\r\n",
        b"GET /work HTTP/1.1\r\nh: " + b"x" * draw.choice((8_100, 8_166, 8_167, 9_000))
        + b"\r\n\r\n",
        b"GET /work HTTP/1.1\r\na : b\r\n\r\n", b"GET /work HTTP/1.1\r\na: b\r\n c\r\n\r\n",
        b"GET /\xc3\xa9 HTTP/1.1\r\n\r\n", b"GET /\xff HTTP/1.1\r\n\r\n",
        b"GET /work HTTP/1.1\r\na: \xff\r\n\r\n", b"\r\n\r\nGET /work HTTP/1.1\r\n\r\n",
        b"GET /work HTTP/1.1\r\nContent-Length: 5\r\n\r\nabcdefg"))


def _cut(draw: random.Random, data: bytes) -> bytes:
    """Now and then the connection ends early."""
    if data and draw.random() < 0.03:
        return data[:draw.randrange(len(data))]
    return data
