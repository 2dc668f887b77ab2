"""Memory and frames at the turns of a trail: what the second reading says of the same turns."""
from __future__ import annotations

import random
import unittest
from pathlib import Path
from unittest import mock

import feulgama
from feulgama.debug import timeline as timelines
from feulgama.opening import open_debugger
from tests.support import SHIM, callers, machine_of, some_programs, wasm


class Trails(unittest.TestCase):
    """With a trail at each way back, however short."""

    def setUp(self) -> None:
        random.seed(9)
        self.enterContext(mock.patch.object(timelines, "LONG_WAY", 150))
        self.from_trails = 0

    def test_programs(self) -> None:
        for data, turns in some_programs(21, 6, 3000):
            if turns > 200:
                self.go_back(data, turns)
        self.assertGreater(self.from_trails, 50)

    def test_system_calls(self) -> None:
        for _ in range(12):
            data = callers.program()
            machine = machine_of(data) if not wasm.refusals_of(data) else None
            if machine is not None:
                machine.run(2000)
                with mock.patch.object(timelines, "LONG_WAY", 5), mock.patch.object(timelines, "TRAIL", 30):
                    self.go_back(data, machine.turns)

    def go_back(self, data: bytes, turns: int) -> None:
        with feulgama.Shim(SHIM) as shim:
            timeline = open_debugger(shim, Path("module"), data, ["b"], {"A": "1"}, None).timeline
            timeline.seek(turns)
            turn = random.randrange(turns * 2 // 3, turns)
            while turn > turns // 3:
                timeline.seek(turn)
                self.compare(timeline, data, turn)
                turn -= random.randint(1, 12)

    def compare(self, timeline: timelines.Timeline, data: bytes, turn: int) -> None:
        machine = machine_of(data)
        machine.args, machine.env = [b"module", b"b"], [b"A=1"]
        machine.run(turn)
        self.from_trails += timeline._with_memory()[1] is not None
        self.assertEqual(timeline.turn, turn)
        self.assertEqual(timeline.memory_size(), len(machine.memory))
        self.assertEqual(timeline.memory(0, 1 << 17), bytes(machine.memory[:1 << 17]))
        self.assertEqual(len(timeline.inspection().frames), len(machine.shown()))
