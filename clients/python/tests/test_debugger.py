"""The terminal debugger: what it shows is what the second reading of the standards says of the same turn."""
from __future__ import annotations

import random
import os
import re
import threading
import time
import unittest
from collections.abc import Callable
from pathlib import Path
from typing import Any
from unittest import mock

import pytest

import feulgama
from feulgama.debug import hunt as hunts
from feulgama.debug import shims
from feulgama.debug.commands import Commands
from feulgama.debug.debugger import Debugger
from feulgama.debug.hunt import Search
from feulgama.debug.look import Place
from feulgama.debug.symbols import Symbols
from feulgama.debug.timeline import Why
from feulgama.model import Frame
from feulgama.opening import open_debugger
from feulgama.program import assemble
from feulgama.wasm.module import decode
from tests.support import CLIENT, FOREVER, OFTEN, SHIM, machine_of, some_programs

FRAME = re.compile(r"#(\d+) (\d+):(\d+|end) <[^>]*> \| labels (.*) \| locals (.*) \| operands (.*)")
PROGRAMS, STOPS, TURNS = 10, 20, 3000


def listed(text: str) -> list[str]:
    return [] if text == "-" else text.split(" ")


def frame_of(line: str) -> dict[str, Any]:
    """A frame that the debugger has shown, in the form of an `inspect`."""
    match = FRAME.fullmatch(line)
    assert match is not None, line
    _, func, next_, labels, locals_, operands = match.groups()
    return {"func": int(func), "labels": list(map(int, listed(labels))), "locals": listed(locals_),
            "next": next_ if next_ == "end" else int(next_), "operands": listed(operands)}


class Oracle:
    """What the second reading says of each turn of a module, and of its breakpoints."""

    def __init__(self, data: bytes, turns: int) -> None:
        self.data, self.turns = data, turns
        machine = machine_of(data)
        self.places: list[tuple[int, int] | None] = [self.place(machine)]
        while machine.end is None and machine.turns < turns:
            machine.turn()
            self.places.append(self.place(machine))
        self.end = machine.end

    @staticmethod
    def place(machine: Any) -> tuple[int, int] | None:
        if machine.end is not None:
            return None
        frame = machine.frames[-1]
        return frame.func, machine.number_of(frame.next())

    def at(self, turn: int) -> Any:
        """The task after this many turns."""
        machine = machine_of(self.data)
        machine.run(turn)
        return machine


class RandomStops(unittest.TestCase):
    """200 random stops of ten programs, forward and back."""

    def test_frames(self) -> None:
        self.assertEqual(self.stop(7, PROGRAMS, SHIM), 200)

    def test_frames_over_many_shims(self) -> None:
        """The same where each shim is left after some two hundred requests."""
        with mock.patch.object(feulgama.shim, "JOURNAL", 600), mock.patch.object(shims, "FRESH", 400):
            self.assertEqual(self.stop(9, 3, SHIM), 60)
        self.assertGreater(self.started, 2)

    def test_frames_where_tasks_run_at_once(self) -> None:
        """The same over a shim that runs a task as soon as it is started or resumed."""
        with mock.patch.dict(os.environ, EAGER="1"):
            self.assertEqual(self.stop(8, 3, CLIENT / "tests/reference_shim.py"), 60)

    def stop(self, seed: int, programs: int, program: str | Path) -> int:
        """Stops 20 times in each of some programs; how many stops there were."""
        stops = self.started = 0
        for data, turns in some_programs(seed, programs, TURNS):
            oracle = Oracle(data, turns)
            with feulgama.Shim(program) as shim:
                debugger = open_debugger(shim, Path("module"), data, [], {}, None)
                debugger.stops_at_traps = False
                for _ in range(STOPS):
                    self.move(Commands(debugger), oracle)
                    stops += 1
                self.started += debugger.timeline.shims_started
                debugger.timeline.close()
        return stops

    def test_more_breakpoints_than_a_task_may_have(self) -> None:
        for data, turns in some_programs(17, 3, TURNS):
            oracle = Oracle(data, turns)
            places = sorted({place for place in oracle.places if place is not None})
            chosen = set(random.sample(places, min(40, len(places) // 2)))
            with feulgama.Shim(SHIM) as shim:
                debugger = open_debugger(shim, Path("module"), data, [], {}, None)
                debugger.add_breakpoint("many", [Place(*place) for place in chosen])
                hits = [at for at, place in enumerate(oracle.places) if place in chosen and at > 0][:20]
                for wanted in hits:
                    debugger.go_on()
                    self.assertEqual(debugger.timeline.turn, wanted)
                for wanted in hits[-2::-1]:
                    debugger.go_back()
                    self.assertEqual(debugger.timeline.turn, wanted)

    def move(self, commands: Commands, oracle: Oracle) -> None:
        """Moves in some way, and compares the turn, the frames and memory with those that there have to be."""
        turn, kind = commands.timeline.turn, random.choice(["goto", "step", "back", "continue", "reverse"])
        if kind == "goto":
            wanted = random.randrange(oracle.turns)
            self.answer(commands, f"goto {wanted}")
        elif kind == "step":
            wanted = min(turn + random.choice([1, 1, 2, 30]), len(oracle.places) - 1)
            self.answer(commands, f"step {wanted - turn}" if wanted > turn else "backtrace")
        elif kind == "back":
            wanted = max(0, turn - random.choice([1, 1, 2, 30]))
            self.answer(commands, f"reverse-step {turn - wanted}" if wanted < turn else "backtrace")
        else:
            wanted = self.run_to_breakpoint(commands, oracle, kind == "reverse")
        self.compare(commands, oracle, wanted)

    def run_to_breakpoint(self, commands: Commands, oracle: Oracle, is_back: bool) -> int:
        turn, last = commands.timeline.turn, len(oracle.places) - 1
        place = random.choice([found for found in oracle.places if found is not None])
        self.answer(commands, f"break {place[0]}:{place[1]}")
        if is_back:
            found = [at for at in range(turn) if oracle.places[at] == place]
            wanted = found[-1] if found else 0
            self.answer(commands, "reverse-continue")
        else:
            found = [at for at in range(turn + 1, last + 1) if oracle.places[at] == place]
            wanted = found[0] if found else last
            if wanted > turn:
                self.answer(commands, f"continue {last - turn}")
        self.answer(commands, "delete")
        return wanted

    def compare(self, commands: Commands, oracle: Oracle, wanted: int) -> None:
        self.assertEqual(commands.timeline.turn, wanted)
        machine = oracle.at(wanted)
        lines = self.answer(commands, "backtrace")
        self.assertEqual([] if lines == ["no frames"] else list(map(frame_of, lines)), machine.shown())
        self.assertEqual(commands.timeline.memory(0, 1000), bytes(machine.memory[:1000]))
        self.assertEqual(commands.timeline.memory_size(), len(machine.memory))

    def answer(self, commands: Commands, line: str) -> list[str]:
        return list(commands.answer(line))


@pytest.mark.program
class Forever(unittest.TestCase):
    """A program that does not end."""

    def setUp(self) -> None:
        shim = self.enterContext(feulgama.Shim(SHIM))
        self.debugger = open_debugger(shim, Path("module"), assemble(FOREVER, [SHIM]), [], {}, None)
        self.timeline = self.debugger.timeline
        self.addCleanup(self.timeline.close)

    def assert_exact(self, turn: int) -> None:
        """The state is that of the turn: each round of the loop is six turns, the fifth of which sets the local."""
        self.assertEqual(self.timeline.turn, turn)
        frame, = self.debugger.frames()
        self.assertEqual((frame.next, frame.locals[0].number), (turn % 6, (turn + 1) // 6))

    @pytest.mark.clock
    def test_it_can_be_broken_off(self) -> None:
        """Each search ends soon after an interrupt, at a turn whose state is right."""
        self.debugger.add_breakpoint("none", [Place(0, 0)])
        moves: list[Callable[[], Why]] = [
            lambda: self.timeline.forward(Search(lambda _: False, self.debugger.places())),
            lambda: self.timeline.seek(10**12), lambda: self.timeline.forward(Search(lambda _: False))]
        for move in moves:
            timer = threading.Timer(0.3, self.timeline.interrupted.set)
            timer.start()
            begin = time.monotonic()
            self.assertIs(move(), Why.INTERRUPTED)
            self.assertLess(time.monotonic() - begin, 2)
            self.timeline.interrupted.clear()
            self.assert_exact(self.timeline.turn)

    def test_a_way_back_that_is_broken_off_changes_nothing(self) -> None:
        self.timeline.seek(20_000_000)
        self.timeline.interrupted.set()
        self.assertIs(self.timeline.seek(19_000_000), Why.INTERRUPTED)
        self.timeline.interrupted.clear()
        self.assert_exact(20_000_000)

    def test_far_turns(self) -> None:
        random.seed(2)
        for _ in range(12):
            turn = random.choice([random.randrange(30_000_000), max(0, self.timeline.turn - random.randint(1, 200))])
            self.timeline.seek(turn)
            self.assert_exact(turn)

    def test_breakpoints_that_are_far_apart(self) -> None:
        self.timeline.seek(3_000_000)
        self.debugger.add_breakpoint("the second turn", [Place(0, 1)])
        self.debugger.go_back()
        self.assert_exact(2_999_995)
        only_first = Search(lambda look: look.turn < 10, frozenset({Place(0, 1)}))
        self.timeline.backward(only_first)
        self.assert_exact(7)

    def test_more_requests_than_a_shim_answers(self) -> None:
        """A search that looks at each of 20,000 turns asks more than 40,000 times."""
        last = Search(lambda look: look.turn == 20_000, each_turn=True)
        self.assertIs(self.timeline.forward(last), Why.FOUND)
        self.assert_exact(20_000)
        self.assertGreater(self.timeline.shims_started, 1)


@pytest.mark.program
class Runs(unittest.TestCase):
    """A search that lets the task run finds what one by steps alone finds."""

    def opened(self) -> Debugger:
        shim = self.enterContext(feulgama.Shim(SHIM))
        debugger = open_debugger(shim, Path("module"), assemble(OFTEN, [SHIM]), [], {}, None)
        self.addCleanup(debugger.timeline.close)
        return debugger

    def test_breakpoints(self) -> None:
        found: list[list[int]] = []
        for after in (0, 10**18):
            with mock.patch.object(hunts, "RUN_AFTER", after):
                debugger = self.opened()
                debugger.add_breakpoint("often", [Place(0, 0)])
                turns = []
                for _ in range(12):
                    self.assertIs(debugger.go_on(), Why.FOUND)
                    turns.append(debugger.timeline.turn)
                    self.assertEqual(debugger.timeline.look().place, Place(0, 0))
                    self.assertEqual(debugger.frames()[1].locals[0].number, 65_536 * len(turns))
                debugger.go_back()
                self.assertEqual(debugger.timeline.turn, turns[-2])
                found.append(turns)
        self.assertEqual(*found)

    def test_a_search_that_accepts_little(self) -> None:
        with mock.patch.object(hunts, "RUN_AFTER", 0):
            timeline = self.opened().timeline
            third = Search(lambda look: b'"i32:196608"' in look.line, frozenset({Place(0, 0)}))
            self.assertIs(timeline.forward(third), Why.FOUND)
            self.assertIn("i32:196608", map(str, timeline.inspection().frames[1].locals))

    @pytest.mark.clock
    def test_it_can_be_broken_off(self) -> None:
        with mock.patch.object(hunts, "RUN_AFTER", 0):
            timeline = self.opened().timeline
            for _ in range(3):
                timer = threading.Timer(0.5, timeline.interrupted.set)
                timer.start()
                begin = time.monotonic()
                self.assertIs(timeline.forward(Search(lambda _: False, frozenset({Place(0, 0)}))), Why.INTERRUPTED)
                self.assertLess(time.monotonic() - begin, 2.5)
                timeline.interrupted.clear()
                self.assertEqual(timeline.look().turn, timeline.turn)


class Calls(unittest.TestCase):
    """`next` and `finish` end where the call has returned, by the depths that the second reading has."""

    def test_next_and_finish(self) -> None:
        for data, turns in some_programs(3, 5, 2000):
            oracle = Oracle(data, turns)
            depths = self.depths(oracle)
            with feulgama.Shim(SHIM) as shim:
                debugger = open_debugger(shim, Path("module"), data, [], {}, None)
                for _ in range(8):
                    turn = random.randrange(len(oracle.places) - 1)
                    debugger.timeline.seek(turn)
                    debugger.next()
                    over = [at for at in range(turn + 1, len(depths)) if depths[at] <= depths[turn]]
                    self.assert_turn(debugger.timeline, over, oracle)
                    debugger.timeline.seek(turn)
                    if depths[turn] > 1:
                        debugger.finish()
                        out = [at for at in range(turn + 1, len(depths)) if depths[at] < depths[turn]]
                        self.assert_turn(debugger.timeline, out, oracle)

    def test_the_call_of_each_frame(self) -> None:
        """The place of a frame that has called is that of its call, as the second reading knows it; or the last call
        of the other arm of an `if`, which no reply tells apart."""
        frames = other = 0
        for data, _ in some_programs(5, 20, 600):
            symbols = Symbols(decode(data), [])
            machine = machine_of(data)
            while machine.end is None and machine.turns < 600:
                machine.turn()
                for shown, frame in zip(machine.shown()[1:], machine.frames[-2::-1]):
                    found = symbols.call_of(Frame(shown["func"], tuple(shown["labels"]), (),
                                                  None if shown["next"] == "end" else shown["next"], ()))
                    frames += 1
                    other += found.place != machine.number_of((frame.sequence, frame.at - 1))
        self.assertGreater(frames, 500)
        self.assertLess(other, frames / 10)

    def depths(self, oracle: Oracle) -> list[int]:
        machine, found = machine_of(oracle.data), []
        for _ in oracle.places:
            found.append(len(machine.frames) if machine.end is None else 0)
            machine.run(1)
        return found

    def assert_turn(self, timeline: Any, wanted: list[int], oracle: Oracle) -> None:
        if wanted:
            self.assertEqual(timeline.turn, wanted[0])
        elif oracle.end is not None:
            self.assertEqual(timeline.turn, len(oracle.places) - 1)
