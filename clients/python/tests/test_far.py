"""How the debugger comes to a turn that is far away, and to breakpoints, over a shim that simulates a task at full
speed."""
from __future__ import annotations

import os
import threading
import time
import unittest
from collections.abc import Callable
from pathlib import Path
from unittest import mock

import pytest

import feulgama
from feulgama.debug.debugger import Debugger
from feulgama.debug.hunt import Search
from feulgama.debug.look import Place
from feulgama.debug.timeline import Why
from feulgama.debug.track import TooFarError
from feulgama.opening import open_debugger
from feulgama.requests import JOURNAL
from feulgama.shim import Shim
from tests.support import FOREVER_BYTES

# Its shim goes by the clock.
pytestmark = pytest.mark.clock
SIMULATED = Path(__file__).with_name("simulated_shim.py")


class Far(unittest.TestCase):
    """The turns of a loop of six: the fifth of them sets the local."""

    def opened(self, **environment: str) -> Debugger:
        with mock.patch.dict(os.environ, environment):
            shim = self.enterContext(feulgama.Shim(SIMULATED))
            self.debugger = open_debugger(shim, Path("module"), FOREVER_BYTES, [], {}, None)
        self.enterContext(mock.patch.dict(os.environ, environment))
        self.addCleanup(self.debugger.timeline.close)
        return self.debugger

    def assert_exact(self, turn: int) -> None:
        timeline = self.debugger.timeline
        self.assertEqual(timeline.turn, turn)
        frame, = timeline.inspection().frames
        self.assertEqual((frame.next, frame.locals[0].number), (turn % 6, (turn + 1) // 6))

    def go_to(self, turns: list[int]) -> None:
        for turn in turns:
            self.assertIs(self.debugger.timeline.seek(turn), Why.FOUND)
            self.assert_exact(turn)

    def test_turns(self) -> None:
        timeline = self.opened().timeline
        self.go_to([100_000_000, 99_999_999, 99_999_990, 5, 100_000_001, 123_456_789, 30_000_000, 29_999_999])
        self.assertLess(timeline._track._shim.left, 16_000)

    def test_a_task_that_becomes_faster(self) -> None:
        self.opened(SPEED="1e7 2e8")
        self.go_to([21_000_000, 60_000_000])

    def test_pauses_that_come_late(self) -> None:
        """A task that has passed the turn is not shown; another one is paused earlier, and in time."""
        timeline = self.opened(LATE="0.2 2").timeline
        self.go_to([40_000_000, 40_000_100, 39_000_000])
        self.assertGreaterEqual(timeline.late, 2)

    def test_pauses_that_all_come_late(self) -> None:
        """One sentence says so, and the debugger goes on where a turn can be come to."""
        timeline = self.opened(LATE="0.1 1000", SPEED="2e8").timeline
        with self.assertRaisesRegex(TooFarError, "too busy to stop a task at turn 10000000"):
            timeline.seek(10_000_000)
        self.go_to([1000])

    def test_a_shim_after_the_other(self) -> None:
        """Each step is three requests at least, and one shim answers 16,384."""
        timeline = self.opened().timeline
        self.go_to([20_000_000])
        for turn in range(20_000_001, 20_007_001):
            self.debugger.step()
            self.assertEqual(timeline.look().turn, turn)
            self.assertEqual(timeline.output(1), b"")
        self.assert_exact(20_007_000)
        self.assertGreater(timeline.shims_started, 0)

    def test_an_interrupt_while_a_shim_takes_the_place_of_another(self) -> None:
        timeline = self.opened().timeline
        self.go_to([50_000_000])
        shim = timeline._track._shim
        assert isinstance(shim, Shim)
        shim._pipe._controlled = JOURNAL - 1
        threading.Timer(0.3, timeline.interrupted.set).start()
        begin = time.monotonic()
        self.assertIs(timeline.forward(Search(lambda _: False, each_turn=True)), Why.INTERRUPTED)
        self.assertLess(time.monotonic() - begin, 2)
        timeline.interrupted.clear()
        self.assert_exact(50_000_000)
        self.assertEqual(timeline.shims_started, 1)  # the one of the move that was broken off is used then

    def test_breakpoints(self) -> None:
        timeline = self.opened().timeline
        self.go_to([60_000_000])
        self.debugger.add_breakpoint("third", [Place(0, 2)])
        for turn in (60_000_002, 60_000_008):
            self.assertIs(self.debugger.go_on(), Why.FOUND)
            self.assert_exact(turn)
        self.assertIs(self.debugger.go_back(), Why.FOUND)
        self.assert_exact(60_000_002)
        self.assertIs(self.debugger.go_on(60_000_004), Why.LIMIT)
        self.assert_exact(60_000_004)
        self.debugger.breakpoints.clear()
        self.assertIs(self.debugger.go_on(90_000_000), Why.LIMIT)
        self.assert_exact(90_000_000)
        self.assertIsNone(timeline.exit)

    def test_a_limit_without_a_breakpoint_on_the_way(self) -> None:
        timeline = self.opened().timeline
        never = Search(lambda _: True, frozenset({Place(1, 0)}))
        self.assertIs(timeline.forward(never, 55_555_555), Why.LIMIT)
        self.assert_exact(55_555_555)

    def test_it_can_be_broken_off(self) -> None:
        timeline = self.opened().timeline
        moves: list[Callable[[], Why]] = [
            lambda: timeline.seek(10**12), lambda: timeline.forward(Search(lambda _: False)),
            lambda: timeline.forward(Search(lambda _: False, frozenset({Place(0, 0)}))),
            lambda: timeline.forward(Search(lambda _: False, frozenset({Place(1, 0)})))]
        for move in moves:
            threading.Timer(0.7, timeline.interrupted.set).start()
            begin = time.monotonic()
            self.assertIs(move(), Why.INTERRUPTED)
            self.assertLess(time.monotonic() - begin, 2)
            timeline.interrupted.clear()
            self.assert_exact(timeline.turn)
