"""Watchpoints: the turns that they stop at are those at which the second reading sees memory change."""
from __future__ import annotations

import itertools
import random
import threading
import time
import unittest
from collections.abc import Iterator
from pathlib import Path
from unittest import mock

import pytest

import feulgama
from feulgama.config import Config, digest_of
from feulgama.debug import counted_body, dwarf, watched_module, writes
from feulgama.debug.commands import Commands
from feulgama.debug.running import Interrupt
from feulgama.debug.track import Track
from feulgama.debug.watched_module import NotWatchableError, Watch, watched
from feulgama.debug.writes import Writes
from feulgama.opening import open_debugger
from feulgama.program import assemble
from feulgama.wasm.module import Module, decode
from tests.support import CLIENT, SHIM, callers, machine_of, some_programs, wasm

WORDS = CLIENT / "examples/words.wasm"
ARGS, ENV = ["module", "b", "cc"], {"A": "1"}


class SecondReading:
    """A whole run of a module, and what memory is at each turn."""

    def __init__(self, data: bytes, most: int) -> None:
        machine = machine_of(data)
        machine.args, machine.env = [text.encode() for text in ARGS], [b"A=1"]
        self.first, self.states = bytes(machine.memory), [bytes(machine.memory)]
        while machine.end is None and machine.turns < most:
            machine.turn()
            self.states.append(bytes(machine.memory))

    def changes(self, address: int, size: int) -> list[int]:
        """The turns after which bytes are others than before."""
        shown = [state[address:address + size].ljust(size, b"\0") for state in self.states]
        return [turn for turn, (before, after) in enumerate(itertools.pairwise(shown), 1) if before != after]

    def places(self) -> list[int]:
        """Where something changes."""
        return sorted({at for before, after in itertools.pairwise(self.states) if before != after
                       for at, both in enumerate(zip(before, after)) if both[0] != both[1]})


class Exact(unittest.TestCase):
    """Random programs, and random ones with system calls: the turns are those of the second reading, also where the
    module stops at few of many writes."""

    def setUp(self) -> None:
        random.seed(31)
        self.enterContext(mock.patch.multiple(writes, MANY=2, WALK=9, LOOKS=4, WINDOW=2))
        self.found = 0

    def programs(self) -> Iterator[bytes]:
        for data, _ in some_programs(12, 8, 1500):
            yield data
        while True:
            data = callers.program()
            if not wasm.refusals_of(data):
                yield data

    def test_programs(self) -> None:
        for data in itertools.islice(self.programs(), 40):
            second = SecondReading(data, 1500)
            places = second.places()
            for address in random.sample(places, min(2, len(places))):
                size = random.choice([1, 2, 3, 4, 8, 11])
                if address + size <= len(second.first) and len(second.states) <= 1500:
                    self.compare(data, second, address, size)
        self.assertGreater(self.found, 100)

    def compare(self, data: bytes, second: SecondReading, address: int, size: int) -> None:
        module, interrupted = decode(data), Interrupt()
        config = Config(digest_of(module.sent), ARGS, ENV)
        wanted = second.changes(address, size)
        with feulgama.Shim(SHIM) as shim:
            watch = Watch(address, size, True, second.first[address:address + size])
            self.assertEqual(wasm.refusals_of(watched(module, config, watch, 0).data), set())
            found = Writes(shim, module, config, watch, lambda: None)
            self.assertEqual(found.next(0, interrupted), wanted[0])
            for turn in random.sample(range(len(second.states)), 3):
                self.assertEqual(found.next(turn, interrupted), next((one for one in wanted if one > turn), None))
                self.assertEqual(found.last(turn, interrupted), max((one for one in wanted if one <= turn), default=None))
                end = turn + random.randrange(300)
                self.assertEqual(found.next_up_to(turn, end, interrupted),
                                 next((one for one in wanted if turn < one <= end), None))
                self.found += 3
            found.close()
            for turn in random.sample(wanted, min(2, len(wanted))):
                found = Writes(shim, module, config, watch, lambda: None)
                self.assertEqual(found.next_up_to(turn - 1, turn, interrupted), turn)
                found.close()
                found = Writes(shim, module, config, watch, lambda: None)
                self.assertEqual(found.last(turn, interrupted), turn)
                found.close()


class Sessions(unittest.TestCase):
    """words.c: `found` has the words, the longest and the sum, which `end_word` writes 9 times."""

    def setUp(self) -> None:
        shim = self.enterContext(feulgama.Shim(SHIM))
        self.commands = Commands(open_debugger(shim, WORDS, WORDS.read_bytes(), [], {}, None))
        self.addCleanup(self.commands.timeline.close)

    def answer(self, line: str) -> list[str]:
        return list(self.commands.answer(line))

    def test_forward_and_back(self) -> None:
        self.assertEqual(self.answer("watch 0x430"), ["watchpoint 1 at 0x430, 4 bytes: 0x430"])
        for count in (1, 2, 3):
            self.assertEqual(self.answer("continue")[0], f"watchpoint 1: 0x430 was {count - 1}, is {count}")
            self.assertEqual(self.answer("x/dw 0x430"), [f"0x00000430: {count}"])
        for count in (3, 2):
            told = f"watchpoint 1: 0x430 is {count - 1}; the next instruction makes it {count}"
            self.assertEqual(self.answer("reverse-continue")[0], told)
            self.assertIn("i32.store", self.answer("disassemble")[5])
        self.answer("delete 1")
        self.assertEqual(self.answer("info breakpoints"), ["no breakpoints"])

    def test_with_breakpoints(self) -> None:
        """What comes first stops the run, in both directions."""
        self.answer("watch 0x438")
        self.answer("break end_word:0")
        turns = []
        for _ in range(4):
            self.answer("continue")
            turns.append(self.commands.timeline.turn)
        self.assertEqual(turns, sorted(turns))
        self.assertEqual([self.commands.timeline.look().place is not None] * 4, [True] * 4)
        self.assertEqual(self.answer("continue")[0], "breakpoint 2")
        self.assertIn("watchpoint 1", self.answer("reverse-continue")[0])
        self.assertEqual(self.answer("reverse-continue")[0], "breakpoint 2")

    def test_the_last_write(self) -> None:
        """Also of the same value: `longest` is written twice in all, its last value 5 by the second word."""
        self.answer("continue")
        told = self.answer("last-write 0x434 4")
        self.assertEqual(told[0], "0x434 4 was written last by the next instruction: it makes it 5")
        self.assertIn("<end_word>", told[1])
        self.assertIn("makes it 3", self.answer("last-write 0x434 4")[0])
        self.assertIn("nothing has written", self.answer("last-write 0x434 4")[0])

    def test_a_write_of_the_same_value(self) -> None:
        """A module that stores 7 twice at 16: the second store is the last write, and no change."""
        body = "4110410736020041104107360200"
        data = bytes.fromhex("0061736d01000000" "010401600000" "03020100" "0503010001" "070a01065f73746172740000"
                             "0a12011000" + body + "0b")
        shim = self.enterContext(feulgama.Shim(SHIM))
        self.commands = Commands(open_debugger(shim, Path("module"), data, [], {}, None))
        self.addCleanup(self.commands.timeline.close)
        self.answer("watch 16")
        self.answer("continue")
        self.assertEqual(self.commands.timeline.turn, 3)
        self.assertIn("ended", self.answer("continue")[-1])
        told = self.answer("last-write 16")
        self.assertIn("makes it 7, which it was before", told[0])
        self.assertEqual(self.commands.timeline.turn, 5)

    def test_what_cannot_be_watched(self) -> None:
        for line in ("watch", "watch 65534", "watch 0 65", "watch 70000", "watch nothing", "last-write 0 0"):
            with self.assertRaises(feulgama.FeulgamaError, msg=line):
                self.answer(line)

    def test_system_calls_write_too(self) -> None:
        """fd_write writes how many bytes it has taken: 3, of the line `35`."""
        self.answer("break write_out")
        self.answer("continue")
        self.answer("delete")
        self.answer("watch written")
        self.assertIn("is 0", self.answer("continue")[0])
        shown = self.answer("continue")
        self.assertEqual(shown[:2], ["stdout: 35", "watchpoint 2: written was 0, is 3"])
        self.assertTrue(shown[2].endswith("call 1"), shown[2])


class CountedTurns:
    """The attribute `turn` of a task, which adds up how far tasks go."""

    def __init__(self) -> None:
        self.made = 0

    def __get__(self, track: Track, _kind: type[Track]) -> int:
        return int(track.__dict__["turn"])

    def __set__(self, track: Track, turn: int) -> None:
        self.made += max(0, turn - track.__dict__.get("turn", 0))
        track.__dict__["turn"] = turn


class Cost(unittest.TestCase):
    """Where each round of a short loop writes, all tasks together make at most five times the turns of the run for a
    search. A loop of 16 turns stores its round at 32, and at 16 the round divided by 256."""

    ROUNDS = 1500
    MOST = 5
    DATA = bytes.fromhex("0061736d01000000" "010401600000" "03020100" "0503010001" "070a01065f73746172740000"
                         "0a27012501017f" "0340" "4110" "2000" "4108" "76" "360200" "4120" "2000" "360200"
                         "2000" "4101" "6a" "2200" "41dc0b" "49" "0d00" "0b" "0b")

    def setUp(self) -> None:
        self.turns = CountedTurns()
        self.enterContext(mock.patch.object(Track, "turn", self.turns, create=True))
        shim = self.enterContext(feulgama.Shim(SHIM, workers=1))
        self.commands = Commands(open_debugger(shim, Path("module"), self.DATA, [], {}, None))
        self.addCleanup(self.commands.timeline.close)
        list(self.commands.answer("continue"))
        self.end = self.commands.timeline.turn
        self.assertEqual(self.end, 16 * self.ROUNDS)

    def cost(self, words: str) -> float:
        """How many times the turns of the run a command takes."""
        self.turns.made = 0
        list(self.commands.answer(words))
        return self.turns.made / self.end

    def test_last_writes(self) -> None:
        for words, before in (("last-write 32", 8), ("last-write 16", 11)):
            self.commands.timeline.seek(self.end)
            for round_ in range(5):
                self.assertLess(self.cost(words), self.MOST)
                self.assertEqual(self.commands.timeline.turn, self.end - before - 16 * round_)

    def test_changes(self) -> None:
        """At 16 there are 1, 2 and so on, the last of them 1,499 / 256, which is 5."""
        self.commands.timeline.seek(0)
        list(self.commands.answer("watch 16"))
        for value in (1, 2, 3):
            self.assertLess(self.cost("continue"), self.MOST)
            self.assertEqual(list(self.commands.answer("x/dw 16")), [f"0x00000010: {value}"])
        self.commands.timeline.seek(self.end)
        for value in (4, 3, 2):
            self.assertLess(self.cost("reverse-continue"), self.MOST)
            self.assertEqual(list(self.commands.answer("x/dw 16")), [f"0x00000010: {value}"])


@unittest.skipUnless(dwarf.IS_THERE, "needs python3-pyelftools")
class CostOfAProgram(unittest.TestCase):
    """The same of a program of C that traps: at its end, and back from there."""

    MOST = 3

    def test_last_writes(self) -> None:
        turns, path = CountedTurns(), CLIENT / "examples/json.wasm"
        with mock.patch.object(Track, "turn", turns, create=True), feulgama.Shim(SHIM) as shim:
            commands = Commands(open_debugger(shim, path, path.read_bytes(), [], {}, None))
            list(commands.answer("run"))
            end = commands.timeline.turn
            for words in ("last-write item", "last-write item->next"):
                turns.made = 0
                self.assertIn("it makes it 0x8598e2", list(commands.answer(words))[0])
                self.assertLess(turns.made, self.MOST * end)
            commands.timeline.close()


@pytest.mark.program
class Speed(unittest.TestCase):
    """Over the program: a search is broken off soon, and costs at most ten runs."""

    LOOP = b"""(module (type $v (func)) (memory 1)
      (func $main (type $v) (local $i i32)
        loop
          i32.const 16  local.get $i  i32.const 20  i32.shr_u  i32.store
          i32.const 32  local.get $i  i32.store
          local.get $i  i32.const 1  i32.add  local.tee $i  i32.const 3000000  i32.lt_u  br_if 0
        end)
      (export "_start" (func $main)))"""

    def setUp(self) -> None:
        shim = self.enterContext(feulgama.Shim(SHIM, workers=1))
        self.commands = Commands(open_debugger(shim, Path("module"), assemble(self.LOOP, [SHIM]), [], {}, None))
        self.addCleanup(self.commands.timeline.close)

    @pytest.mark.clock
    def test_cost(self) -> None:
        """Each round writes; of three million the last one is found, and the one that changes what few do."""
        begin = time.monotonic()
        list(self.commands.answer("continue"))
        run, end = time.monotonic() - begin, self.commands.timeline.turn
        for words, turn in (("last-write 32", end - 8), ("last-write 16", end - 11)):
            self.commands.timeline.seek(end)
            begin = time.monotonic()
            list(self.commands.answer(words))
            self.assertEqual(self.commands.timeline.turn, turn)
            self.assertLess(time.monotonic() - begin, 10 * run + 2)
        list(self.commands.answer("goto 0"))
        list(self.commands.answer("watch 16"))
        for value in (1, 2):
            list(self.commands.answer("continue"))
            self.assertEqual(list(self.commands.answer("x/dw 16")), [f"0x00000010: {value}"])

    @pytest.mark.clock
    def test_it_can_be_broken_off(self) -> None:
        list(self.commands.answer("watch 48"))
        threading.Timer(0.3, self.commands.timeline.interrupted.set).start()
        begin = time.monotonic()
        list(self.commands.answer("continue"))
        self.assertLess(time.monotonic() - begin, 10)


class NotWatchable(unittest.TestCase):
    def test_a_module_that_would_be_too_large(self) -> None:
        with mock.patch.object(watched_module, "MOST_BYTES", 1000), feulgama.Shim(SHIM) as shim:
            commands = Commands(open_debugger(shim, WORDS, WORDS.read_bytes(), [], {}, None))
            list(commands.answer("watch 0x430"))
            with self.assertRaisesRegex(NotWatchableError, "too large to be watched"):
                list(commands.answer("continue"))


class ShortMaker(watched_module.Maker):
    """Makes the module as if it would have too many bytes otherwise."""

    def __init__(self, module: Module, config: Config, watch: Watch, _is_short: bool) -> None:
        super().__init__(module, config, watch, True)


class ExactWhereStoresAreFunctions(Exact):
    """The same where each store is a function."""

    def setUp(self) -> None:
        super().setUp()
        self.enterContext(mock.patch.object(watched_module, "Maker", ShortMaker))


class ExactWithShortSegments(Exact):
    """The same where few turns are counted together."""

    def setUp(self) -> None:
        super().setUp()
        self.enterContext(mock.patch.multiple(counted_body, LONGEST=3, FAR_APART=5))
