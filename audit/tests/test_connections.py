"""Heads, bodies and answers beyond the worked rows."""

import random
import unittest

from audit.connections import NotARequest, json_request, serve
from audit.heads import Head, NoHead, Partial, read_head
from audit.inputs import connections
from audit.json_text import JsonError, Number, read_json, string_text
from audit.machine import Machine
from audit.words import Request

from .session import Session, started


def kind_of(data: bytes) -> Head | str:
    """The head, `none` where the bytes begin no head, or `partial`."""
    try:
        return read_head(data)
    except NoHead:
        return "none"
    except Partial:
        return "partial"


class Heads(unittest.TestCase):
    def test_good(self) -> None:
        for data in (b"GET / HTTP/1.0\n\n", b"\r\n\nGET / HTTP/1.1\r\n\r\n",
                     b"x!#$%&'*+-.^_`|~9 \xc3\xa9 HTTP/1.1\r\na:\r\nB:\t x \xff\t y \t\r\n\n"):
            self.assertIsInstance(kind_of(data), Head, data)
        head = read_head(b"GET /a?b HTTP/1.1\r\nContent-Length: \t 12 \t\r\n\r\nrest")
        self.assertEqual((head.method, head.target, head.headers),
                         ("GET", "/a?b", [(b"Content-Length", b"12")]))
        self.assertEqual(head.length, 45)

    def test_bad(self) -> None:
        for data in (b" GET", b"GET  ", b"GET \x7f", b"G@T", b"GET / HTTP/2", b"GET / HTTP/1.2",
                     b"GET / http", b"GET / HTTP/1.1 ", b"GET / HTTP/1.1\rx", b"\rG",
                     b"GET /\xff HTTP", b"GET / HTTP/1.1\r\n:", b"GET / HTTP/1.1\r\na :",
                     b"GET / HTTP/1.1\r\na: b\r\n c", b"GET / HTTP/1.1\r\na: \x01",
                     b"GET / HTTP/1.1\r\na: b\rc", b"GET / HTTP/1.1\r\n\rx"):
            self.assertEqual(kind_of(data), "none", data)

    def test_more_bytes_keep_the_verdict(self) -> None:
        draw = random.Random(3)
        pieces = [b"GET", b"POST", b" ", b"/posts", b"/work", b" HTTP/1.1", b"\r\n", b"\n", b"\r",
                  b"a:", b" b", b"\t", b"\xff", b"\x00", b"Content-Length: 3", b"?x"]
        for _ in range(4_000):
            data = b"".join(draw.choice(pieces) for _ in range(draw.randint(1, 9)))
            if draw.random() < 0.6:
                data = b"GET /work HTTP/1.1\r\n" + data
            verdicts = [kind_of(data[:n]) for n in range(len(data) + 1)]
            for before, after in zip(verdicts, verdicts[1:]):
                if before != "partial":
                    self.assertEqual(before, after)

    def test_header_lines(self) -> None:
        base = b"GET /work HTTP/1.1\r\n"
        full = base + b"a: b\r\n" * 64
        self.assertIsInstance(kind_of(full + b"\r\n"), Head)
        for end in (b"", b"c", b"c: d", b"c: d\r"):  # one line too many has begun
            self.assertEqual(kind_of(full + end), "partial", end)
        for end in (b"c: d\r\n", b"c: d\n\n", b"c :", b"(", b" "):
            self.assertEqual(kind_of(full + end), "none", end)

    def test_limits(self) -> None:
        p = Session()
        base = b"GET /work HTTP/1.1\r\nh: "
        whole = base + b"x" * (8_192 - len(base) - 4) + b"\r\n\r\n"
        self.assertEqual(len(whole), 8_192)
        self.assertTrue(p.answer(whole).startswith(b"HTTP/1.1 200 "))
        longer = base + b"x" * (8_193 - len(base) - 4) + b"\r\n\r\n"
        self.assertTrue(p.answer(longer).startswith(b"HTTP/1.1 431 "))
        self.assertTrue(p.answer(b"\x00" + b"x" * 9_000).startswith(b"HTTP/1.1 400 "))


class Order(unittest.TestCase):
    def status(self, data: bytes) -> bytes | None:
        answer = started().answer(data)
        return answer[9:12] if answer else None

    def test_first_that_applies(self) -> None:
        for data, status in (
                (b"DELETE /nowhere HTTP/1.1\r\nContent-Length: x\r\n\r\n", b"400"),
                (b"DELETE /nowhere HTTP/1.1\r\nContent-Length: 99999\r\n\r\n", b"404"),
                (b"DELETE /accounts/! HTTP/1.1\r\n\r\n", b"404"),
                (b"DELETE /accounts/a/cycles/01 HTTP/1.1\r\n\r\n", b"404"),
                (b"PUT /posts HTTP/1.1\r\nContent-Length: 99999\r\n\r\n", b"405"),
                (b"get /work HTTP/1.1\r\n\r\n", b"405"),
                (b"GET /work HTTP/1.1\r\nContent-Length: 16385\r\n\r\n", b"413"),
                (b"GET /work HTTP/1.1\r\nContent-Length: 000000000\r\n\r\n", b"200"),
                (b"GET /work HTTP/1.1\r\ncontent-LENGTH: 2\r\n\r\nx", None),
                (b"GET /work HTTP/1.1\r\ncontent-LENGTH: 2\r\n\r\nxyz", b"200"),
                (b"GET /work/ HTTP/1.1\r\n\r\n", b"404"),
                (b"GET /work?a/b HTTP/1.1\r\n\r\n", b"200"),
                (b"POST /posts HTTP/1.1\r\n\r\n", b"400"),
                (b"GET /accounts/a HTTP/1.1\r\n\r\n", b"200"),
                (b"GET /accounts/b HTTP/1.1\r\n\r\n", b"404"),
                (b"GET /accounts/a/statements/1 HTTP/1.1\r\n\r\n", b"404"),
                (b"GET /accounts/a/statements/0 HTTP/1.1\r\n\r\n", b"404"),
                (b"GET /accounts/a/cycles/999999999999 HTTP/1.1\r\n\r\n", b"404"),
                (b"GET /accounts/a/entries HTTP/1.1\r\n\r\n", b"200"),
                (b"GET /accounts//entries HTTP/1.1\r\n\r\n", b"404")):
            self.assertEqual(self.status(data), status, data)

    def test_refusals_with_values(self) -> None:
        p = started()

        def post(body: bytes) -> bytes:
            got = p.answer(b"POST /posts?q HTTP/1.0\nContent-Length: %d\n\n" % len(body) + body)
            return got.partition(b"\r\n\r\n")[2]

        self.assertEqual(post(b'{"kind":"roll","day":"2024-01-10"}'),
                         b'{"name":"RollBack","no":27,"value":"2024-01-10"}')
        self.assertEqual(post(b'{"kind":"refund","account":"a","key":"f","cents":5}'),
                         b'{"name":"RefundTooLarge","no":23,"value":0}')
        self.assertEqual(post(b'{"kind":"roll","day":"2024-01-11"}'), b'{"ok":0}')
        self.assertEqual(post(b'{"cents":7,"key":"c","kind":"charge","account":"a","day":'
                              b'"2024-01-11","place":"purchase"}'), b'{"ok":2}')
        self.assertEqual(p.owed("a"), 7)
        self.assertEqual(len(p.keeper.rows), 5)


class Connections(unittest.TestCase):
    def test_generated_connections(self) -> None:
        """Every status comes but those of faults and the rare 431, and only a 200 to a POST keeps a
        row."""
        seen = set()
        for seed in range(4):
            machine, p = Machine(), Session()
            for data in connections(seed, 150, 2):
                kept = len(p.keeper.rows)
                answer = serve(machine, data, p.keeper.keep)
                found = answer.to_bytes() if answer else b""
                seen.add(found[9:12])
                if len(p.keeper.rows) > kept:
                    self.assertIn(b'{"ok":', found)
                    self.assertEqual(len(p.keeper.rows), kept + 1)
                head, _, body = found.partition(b"\r\n\r\n")
                if answer:
                    self.assertIn(b"Content-Length: %d\r\n" % len(body), head)
            self.assertEqual(p.run("apply"), (b"", 0))
        self.assertEqual(seen - {b"431"},
                         {b"", b"200", b"400", b"404", b"405", b"409", b"413", b"422"})


class Json(unittest.TestCase):
    def test_refused(self) -> None:
        for body in (b"", b" ", b"{", b"{}x", b'{"a":1,}', b"[1,]", b"01", b"1.", b".5", b"+1",
                     b"1e", b"NaN", b"tru", b"'a'", b'"\n"', b'"\\x"', b'"\\ud800"',
                     b'"\\ud800\\u0041"', b'"\\udc00"', b'"\xff"', b"\xef\xbb\xbf{}",
                     b"1e999", b"[" * 128 + b"]" * 128,
                     b'{"a" 1}', b'{a:1}'):
            with self.assertRaises(JsonError, msg=body):
                read_json(body)

    def test_read(self) -> None:
        self.assertEqual(
            read_json(b' {"a":[1,-0,1.5e3,true,null,"\\u00e9\\ud83d\\ude00\\/"],"a":2}\n'),
            {"a": Number("2")})
        self.assertEqual(read_json(b'["\\u00e9\\ud83d\\ude00\\/",-0]'),
                         ["\u00e9\U0001f600/", Number("-0")])
        read_json(b"[" * 127 + b"]" * 127)

    def test_string_text(self) -> None:
        self.assertEqual(string_text('a"\\\n\x01\x7f\u00e9'), '"a\\"\\\\\\n\\u0001\x7f\u00e9"')

    def test_fields(self) -> None:
        def field(body: bytes) -> Request | str:
            found = json_request(read_json(body))
            return found.field if isinstance(found, NotARequest) else found

        for body, name in ((b'"x"', "kind"), (b'{"kind":"show","account":"a"}', "kind"),
                           (b'{"kind":1}', "kind"), (b'{"kind":"roll","kind":2}', "kind"),
                           (b'{"kind":"penalty","key":"q"}', "account"),
                           (b'{"kind":"penalty","account":"a"}', "key"),
                           (b'{"kind":"penalty","account":5,"key":"q","zz":1}', "account"),
                           (b'{"kind":"penalty","account":"a","key":"q","zz":1,"a":2}', "a"),
                           (b'{"kind":"penalty","account":"a","key":"q","\\u00e9":1,"z":2}', "z"),
                           (b'{"kind":"bill","account":"a","key":"q","cycle":"1"}', "cycle"),
                           (b'{"kind":"bill","account":"a","key":"q","cycle":1.0}', "cycle"),
                           (b'{"kind":"bill","account":"a","key":"q","cycle":-0}', "cycle"),
                           (b'{"kind":"bill","account":"a","key":"q","cycle":1000000000000}',
                            "cycle"),
                           (b'{"kind":"roll","day":"2024-02-30"}', "day")):
            self.assertEqual(field(body), name, body)
        self.assertEqual(field(b'{"kind":"bill","account":"a","key":"q","cycle":999999999999}'),
                         Request("bill", "a", "q", cycle=999_999_999_999))


if __name__ == "__main__":
    unittest.main()
