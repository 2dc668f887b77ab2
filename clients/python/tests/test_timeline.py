"""The page of a run: its calls are those of the second reading, and a browser draws them."""
from __future__ import annotations

import io
import json
import re
import shutil
import subprocess
import tempfile
import unittest
from collections.abc import Callable
from contextlib import redirect_stderr
from pathlib import Path
from typing import Any
from unittest import mock

import pytest

import feulgama
from feulgama.cli import main
from feulgama.debug import calls_over_time
from feulgama.debug.calls_over_time import Story, told
from feulgama.debug.running import Interrupt
from feulgama.debug.timeline import Why, size_of
from feulgama.debug.track import Track
from feulgama.opening import open_debugger
from tests.support import CLIENT, SHIM, TRAPPING_BYTES, callers, full_disk, machine_of, some_programs, wasm

WORDS = CLIENT / "examples/words.wasm"
BROWSER = shutil.which("chromium")
RECT = re.compile(r'<rect class="call"[^>]*data-func="(\d+)" data-begin="(\d+)" data-end="(\d+)" data-depth="(\d+)"')
Calls = list[tuple[int, int, int, int]]


def story_of(data: bytes, most: int = 100_000_000) -> Story:
    with feulgama.Shim(SHIM) as shim:
        debugger = open_debugger(shim, Path("module"), data, [], {}, None)
        story = told(debugger, most, Interrupt(), lambda _turn, _turns: None)
        debugger.timeline.close()
    return story


class SecondReading:
    """The calls of a run, its memory and its output, turn by turn."""

    def __init__(self, data: bytes, most: int) -> None:
        machine = machine_of(data)
        machine.args = [b"module"]
        self.calls: Calls = []
        self.output: list[tuple[int, int, str]] = []
        self.memory = [(0, len(machine.memory))]
        open_: list[tuple[Any, int]] = []
        self.follow(machine, open_)
        while machine.end is None and machine.turns < most:
            before = {stream: len(machine.streams[stream]) for stream in (1, 2)}
            machine.turn()
            self.follow(machine, open_)
            if len(machine.memory) != self.memory[-1][1]:
                self.memory.append((machine.turns, len(machine.memory)))
            for stream, length in before.items():
                new = bytes(machine.streams[stream])[length:]
                self.output += [(machine.turns, stream, new.decode(errors="replace"))] if new else []
        for depth, (frame, begin) in enumerate(open_):
            self.calls.append((frame.func, depth, begin, machine.turns))
        self.turns = machine.turns

    def follow(self, machine: Any, open_: list[tuple[Any, int]]) -> None:
        frames = machine.frames if machine.end is None else []
        while open_ and (len(open_) > len(frames) or open_[-1][0] is not frames[len(open_) - 1]):
            frame, begin = open_.pop()
            self.calls.append((frame.func, len(open_), begin, machine.turns))
        open_ += [(frame, machine.turns) for frame in frames[len(open_):]]


class Exact(unittest.TestCase):
    def test_random_programs(self) -> None:
        modules = [data for data, _ in some_programs(41, 6, 3000)]
        while len(modules) < 14:
            data = callers.program()
            modules += [] if wasm.refusals_of(data) else [data]
        modules += [WORDS.read_bytes(), (CLIENT / "examples/json.wasm").read_bytes()]
        calls = 0
        for data in modules:
            story, second = story_of(data, 3000), SecondReading(data, 3000)
            self.assertEqual((story.step, story.turns), (1, second.turns))
            self.assertEqual(sorted((one.func, one.depth, one.begin, one.end) for one in story.calls), sorted(second.calls))
            self.assertEqual((story.memory, story.output), (second.memory, second.output))
            calls += len(second.calls)
        self.assertGreater(calls, 60)

    def test_a_trap(self) -> None:
        story = story_of(TRAPPING_BYTES)
        self.assertEqual((story.turns, story.end), (3, "trap unreachable, exit 134"))

    def test_a_run_that_is_too_long_to_be_looked_at_turn_by_turn(self) -> None:
        """Each call that is seen is one of the run's, as near as the looks are."""
        with mock.patch.multiple(calls_over_time, EXACT=1000, SAMPLES=200):
            story = story_of(WORDS.read_bytes())
        second = SecondReading(WORDS.read_bytes(), 10_000)
        self.assertEqual((story.step, story.turns), (40, 8069))
        for one in story.calls:
            near = [call for call in second.calls
                    if call[:2] == (one.func, one.depth) and abs(call[2] - one.begin) <= 40]
            self.assertTrue(near, one)
        self.assertEqual([text for _, _, text in story.output], ["35\n"])


class BrokenOff(unittest.TestCase):
    """Ctrl-C ends one of the three runs, and what is shown is exact up to there."""

    def setUp(self) -> None:
        shim = self.enterContext(feulgama.Shim(SHIM))
        self.debugger = open_debugger(shim, Path("module"), WORDS.read_bytes(), [], {}, None)
        self.addCleanup(self.debugger.timeline.close)
        self.interrupted = self.debugger.timeline.interrupted

    def story(self, turns: int, progress: Callable[[int, int], None] = lambda _turn, _turns: None) -> Story:
        """The story of the run. Its calls have to be those of so many turns."""
        story, second = told(self.debugger, 10_000, self.interrupted, progress), SecondReading(WORDS.read_bytes(), turns)
        self.assertEqual(story.turns, turns)
        self.assertEqual(sorted((one.func, one.depth, one.begin, one.end) for one in story.calls), sorted(second.calls))
        return story

    def test_the_first(self) -> None:
        seek = self.debugger.timeline.seek

        def broken_off(_turn: int) -> Why:
            seek(2000)
            self.interrupted.set()
            return Why.INTERRUPTED
        with mock.patch.object(self.debugger.timeline, "seek", broken_off):
            story = self.story(2000)
        self.assertEqual(story.end, "not ended; the first 2000 turns are shown")
        self.assertEqual(story.memory, [(0, 65_536)])

    def test_the_second(self) -> None:
        def progress(turn: int, _turns: int) -> None:
            if turn >= 1000:
                self.interrupted.set()
        self.assertEqual(self.story(1024, progress).end, "exit, exit 9 after 8069 turns; the first 1024 turns are shown")

    def test_the_third(self) -> None:
        def size(track: Track) -> int:
            self.interrupted.set()
            return size_of(track)
        with mock.patch.object(calls_over_time, "size_of", size):
            story = self.story(8069)
        self.assertEqual(story.end, "exit, exit 9; memory and output are those of the first 0")
        self.assertEqual((story.memory, story.output), ([(0, 65_536)], []))


@pytest.mark.slow
class Long(unittest.TestCase):
    """At the real limit: `fib` calls itself, as in `fib(n - 1) + fib(n - 2)`."""

    @staticmethod
    def fibonacci(number: int) -> bytes:
        """The module whose entry calls `fib` with a number."""
        return bytes.fromhex("0061736d01000000" "010902" "600000" "60017f017f" "0303020100" "070a01065f73746172740001"
                             "0a26021c00" "2000" "4102" "48" "047f" "2000" "05" "2000" "4101" "6b" "1000"
                             "2000" "4102" "6b" "1000" "6a" "0b" "0b" "0700" f"41{number:02x}" "1000" "1a" "0b")

    def test_up_to_the_limit_each_turn_is_looked_at(self) -> None:
        data = self.fibonacci(18)
        story, second = story_of(data), SecondReading(data, 200_000)
        self.assertTrue(50_000 < second.turns <= 100_000, second.turns)
        self.assertEqual((story.step, story.turns), (1, second.turns))
        self.assertEqual(sorted((one.func, one.depth, one.begin, one.end) for one in story.calls), sorted(second.calls))

    def test_beyond_it_some_are(self) -> None:
        """Each call that is seen is one of the run's, and each long one is seen, as near as the looks are."""
        for number in (19, 20):
            data = self.fibonacci(number)
            story, second = story_of(data), SecondReading(data, 1_000_000)
            self.assertGreater(second.turns, 100_000)
            self.assertEqual((story.step, story.turns), (second.turns // 1000, second.turns))
            for one in story.calls:
                self.assertTrue(any(call[:2] == (one.func, one.depth) and abs(call[2] - one.begin) <= story.step
                                    and call[3] <= one.end + story.step for call in second.calls), one)
            for func, depth, begin, end in second.calls:
                if end - begin > 2 * story.step:
                    self.assertTrue(any((one.func, one.depth) == (func, depth) and begin <= one.begin <= begin + story.step
                                        for one in story.calls), (depth, begin, end))

    def test_the_page_says_so(self) -> None:
        with tempfile.TemporaryDirectory() as folder:
            module, page = Path(folder) / "fib.wasm", Path(folder) / "fib.html"
            module.write_bytes(self.fibonacci(19))
            with redirect_stderr(io.StringIO()):
                self.assertEqual(main(["--shim", SHIM, "timeline", "-o", str(page), str(module)]), 0)
            turns = SecondReading(self.fibonacci(19), 1_000_000).turns
            self.assertIn(f"{turns} turns", page.read_text())
            self.assertIn(f"ooked at each {turns // 1000} turns: a call that is shorter may be missing", page.read_text())


class Page(unittest.TestCase):
    def setUp(self) -> None:
        self.folder = Path(self.enterContext(tempfile.TemporaryDirectory()))
        self.file = self.folder / "words.html"
        with redirect_stderr(io.StringIO()):
            self.assertEqual(main(["--shim", SHIM, "timeline", "-o", str(self.file), str(WORDS)]), 0)

    def test_a_full_disk(self) -> None:
        """The page that was there stays."""
        before = self.file.read_bytes()
        with full_disk(100), redirect_stderr(io.StringIO()) as said:
            self.assertEqual(main(["--shim", SHIM, "timeline", "-o", str(self.file), str(WORDS)]), 1)
        self.assertEqual(said.getvalue().splitlines()[-1], "feulgama: [Errno 27] File too large")
        self.assertEqual((self.file.read_bytes(), list(self.folder.iterdir())), (before, [self.file]))

    def test_it_needs_no_network(self) -> None:
        text = self.file.read_text()
        self.assertNotRegex(text.replace("http://www.w3.org/2000/svg", ""), r"https?:|src=|@import|<link")
        self.assertIn("8069 turns, 57 calls; exit, exit 9. Each begin and end is exact to the turn.", text)

    @pytest.mark.clock
    @unittest.skipIf(BROWSER is None, "needs Debian's chromium")
    def test_in_a_browser(self) -> None:
        """What is drawn are the calls of the second reading; a click shows the turn for the debugger's `goto`."""
        run = subprocess.run([str(BROWSER), "--headless", "--no-sandbox", "--disable-gpu", f"--user-data-dir={self.folder}",
                              "--dump-dom", f"{self.file.as_uri()}#14"], capture_output=True, text=True, check=True,
                             timeout=60)
        drawn = sorted((int(func), int(depth), int(begin), int(end))
                       for func, begin, end, depth in RECT.findall(run.stdout))
        self.assertEqual(drawn, sorted(SecondReading(WORDS.read_bytes(), 10_000).calls))
        self.assertRegex(run.stdout, r'<div id="told">goto 14   count, turns 14 to \d+, depth 1</div>')
        self.assertIn(f"turn 8052, stdout: {json.dumps(chr(10).join(['35', '']))}", run.stdout)
        self.assertIn('data-size="65536"', run.stdout)
