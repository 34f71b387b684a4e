"""A server whose disk is full answers 503 to a request that can't be kept, which leaves nothing,
and answers what is asked. With room the request is kept, by the same server too."""

import resource

from ..support.case import Case
from ..support.program import apply
from ..support.rows import rows_of
from ..support.server import Server
from .talk import JSON, TEXT, Talk, posted, whole

ROLL = posted(b'{"kind":"roll","day":"2024-01-28"}')
# too few bytes for a row, and enough to load the rows
ROOM = 4096
ALL = 1 << 40


class FullDisk(Case):
    def test_a_request_that_cannot_be_kept(self) -> None:
        self.assert_done(apply(self.file, ["roll 2024-01-27"]), 0, "ok\n")
        rows, fault = rows_of(self.file), '{"fault":"keeper"}'
        full = Talk(self)
        full.exchange(ROLL, whole("503 Service Unavailable", JSON, fault))
        full.exchange(b"GET /work HTTP/1.1\r\n\r\n", whole("200 OK", TEXT, ""))
        full.exchange(ROLL, whole("503 Service Unavailable", JSON, fault))
        full.run(self.file, file_limit=ROOM)
        self.assertEqual(rows_of(self.file), rows)
        roomy = Talk(self)
        roomy.exchange(ROLL + b"GET", whole("200 OK", JSON, '{"ok":0}'))
        roomy.run(self.file)
        self.assertEqual(len(rows_of(self.file)), len(rows) + 1)

    def test_the_same_server_takes_it_once_there_is_room(self) -> None:
        self.assert_done(apply(self.file, ["roll 2024-01-27"]), 0, "ok\n")
        with Server(self.file, file_limit=ALL) as server:
            server.connect().close()
            for room, status, kept in ((ROOM, 503, 1), (ROOM, 503, 1), (ALL, 200, 2)):
                resource.prlimit(server.running.pid, resource.RLIMIT_FSIZE, (room, ALL))
                self.assertEqual(server.post("roll 2024-01-28").status, status)
                self.assertEqual(len(rows_of(self.file)), kept)
