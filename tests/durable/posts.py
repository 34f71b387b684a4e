"""A server that is killed while four clients post to it."""

import http.client
import json
import threading
import time

from ..support.program import apply
from ..support.server import Server
from .expected import Expected, Outcome, fail, sound_rows, was_killed
from .requests import ACCOUNTS, BODIES, LINES, OPENING

CLIENTS = 4
Answers = list[tuple[int, str]]  # the place of each charge that was answered 200, and the body


def post(port: int, client: int, answered: Answers) -> None:
    """A client's posts, in order, to accounts of its own, until one fails."""
    for number, body in enumerate(BODIES):
        if number % ACCOUNTS % CLIENTS != client:
            continue
        try:
            link = http.client.HTTPConnection("127.0.0.1", port, timeout=20)
            link.request("POST", "/posts", body)
            answer = link.getresponse()
            text = answer.read().decode()
            link.close()
        except (OSError, http.client.HTTPException):
            return
        if answer.status != 200:
            return
        answered.append((number, text))


def answered_before(file: str, seconds: float) -> Answers:
    """What was answered by a server that is killed so many seconds after it first listens."""
    answered: list[Answers] = [[] for _ in range(CLIENTS)]
    with Server(file) as server:
        server.connect().close()
        clients = [threading.Thread(target=post, args=(server.port, client, answered[client]))
                   for client in range(CLIENTS)]
        for client in clients:
            client.start()
        time.sleep(seconds)
        server.kill()
        for client in clients:
            client.join(60)
            if client.is_alive():
                fail("a client hangs behind a server that was killed")
    was_killed(server.running.returncode)
    return [answer for answers in answered for answer in answers]


def killed_server(expected: Expected, file: str, seconds: float) -> Outcome:
    """Each answer of 200 has its row, and at most one row more is there. Each client posts to
    accounts of its own, in order, so each charge has the number that it has by lines."""
    answers = answered_before(file, seconds)
    rows = sound_rows(file, 1)
    count, posted = len(answers), len(rows) - len(OPENING)
    if rows[: len(OPENING)] != expected.rows[: len(OPENING)] or posted not in (count, count + 1):
        fail(f"{count} answers of 200 and {posted} rows")
    kept = {body for _, body in rows}
    if not kept <= {body for _, body in expected.rows} or len(kept) != len(rows):
        fail("a row isn't that of a request")
    for number, answer in answers:
        if expected.rows[len(OPENING) + number][1] not in kept:
            fail(f"the row of charge {number}, answered {answer}, isn't there")
    again = apply(file, LINES)
    if again.status != 0 or again.lines != expected.charged:
        fail(f"sent again as lines, the requests end with {again.status}")
    for number, answer in answers:
        if f"ok {json.loads(answer)['ok']}" != again.lines[number]:
            fail(f"sent again as lines, charge {number} has another number than {answer}")
    return Outcome(count, posted - count)
