"""Kills, lines that come one by one and in pieces, full disks and full outputs: whole replies have
their rows. The long form is `python3 -m tests.durable [SEED [KILLS [LANES]]]`."""

import os
import random
import shutil
import tempfile
import unittest
from typing import ClassVar

from ..support.case import Case
from ..support.case import long as takes_long
from .disks import ROOMS, full_disk
from .expected import Expected
from .kills import Kills
from .outputs import FULL, answered, full_output
from .requests import CHARGES

SEED = random.randrange(10**6)
KILLS = 60
LANES = 1
DISKS = 6


class Durable(Case):
    expected: ClassVar[Expected]

    @classmethod
    def setUpClass(cls) -> None:
        room = tempfile.mkdtemp(prefix="billctl-")
        cls.addClassCleanup(shutil.rmtree, room, ignore_errors=True)
        cls.expected = Expected(room)

    @takes_long
    def test_kills(self) -> None:
        outcomes = []
        for name, ended in Kills(self.expected, self.room).run(SEED, KILLS, LANES):
            with self.subTest(seed=SEED, kill=name):
                outcomes.append(ended.result())
        amid = sum(0 < outcome.replies < CHARGES for outcome in outcomes)
        ahead = sum(outcome.ahead for outcome in outcomes)
        print(f"seed {SEED}: {KILLS} kills, {amid} amid the replies, {ahead} rows ahead of them",
              flush=True)

    def test_lines_one_by_one(self) -> None:
        answered(self.expected, self.room, [1] * 40)

    def test_lines_in_pieces(self) -> None:
        drawn = random.Random(SEED)
        with self.subTest(seed=SEED):
            answered(self.expected, self.room, [drawn.randrange(1, 200) for _ in range(20)])

    def test_full_disks(self) -> None:
        drawn, ways, kept = random.Random(SEED), self.expected.ways, 0
        for number in range(DISKS):
            size = ROOMS[1] if number < len(ways) else drawn.randrange(*ROOMS)
            way = ways[number % len(ways)]
            with self.subTest(seed=SEED, disk=number, size=size, command=way.command):
                kept += full_disk(self.expected, self.room, way, size)
        self.assertTrue(kept, "no disk took a row before it was full")

    @unittest.skipUnless(os.access(FULL, os.W_OK), f"{FULL} isn't there: an output that is full")
    def test_full_outputs(self) -> None:
        for command in ("apply", "import"):
            with self.subTest(command):
                full_output(self.expected, self.room, command)
