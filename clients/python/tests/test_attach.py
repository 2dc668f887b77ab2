"""The debugger on a container: what moves the container, what is made once more by tasks of the debugger's own, and what is
said when it cannot attach or the container goes."""
from __future__ import annotations

import contextlib
import io
import json
import os
import socket
import tempfile
import threading
import time
import unittest
from collections.abc import Callable
from pathlib import Path
from unittest import mock

import pytest

import feulgama
from feulgama import requests
from feulgama.attach.command import goodbye, modules_of, open_container
from feulgama.attach.config import config_of
from feulgama.attach.door import NAME, TASKS, NoContainerError, find
from feulgama.attach.link import ContainerGoneError, Link
from feulgama.attach.timeline import BrokenOffError, LiveTimeline
from feulgama.cli import main
from feulgama.confinement import NOBODY, confinement
from feulgama.debug import track
from feulgama.debug.commands import Commands
from feulgama.debug.debugger import Debugger
from feulgama.debug.hunt import Search
from feulgama.debug.look import Place
from feulgama.debug.timeline import Why
from feulgama.debug.track import TooFarError
from feulgama.errors import FeulgamaError, JournalFullError
from feulgama.lowering import lower
from feulgama.lowering.described import described
from feulgama.wasm.module import decode
from tests.float_modules import asking, bits_of
from tests.stub_container import StubContainer
from tests.support import CLIENT, EXIT_7, FOREVER_BYTES, SHIM, TRAPPING_BYTES

WORDS = (CLIENT / "examples/words.wasm").read_bytes()
# FOREVER with a memory of two pages, which has "hi" at address 100,000.
TWO_PAGES = FOREVER_BYTES.replace(bytes.fromhex("03020100"), bytes.fromhex("03020100" "0503010002")) + \
    bytes.fromhex("0b0a01" "0041a08d060b" "026869")


class Attached(unittest.TestCase):
    """Containers of FOREVER, a loop of six turns whose fifth sets the local, and of the examples."""

    def setUp(self) -> None:
        self.state = Path(self.enterContext(tempfile.TemporaryDirectory()))
        self.said: list[str] = []

    def container(self, module: bytes = FOREVER_BYTES, turns: int = 600, name: str = "one",
                  original: bytes | None = None) -> StubContainer:
        made = StubContainer(SHIM, self.state, module, turns, name, original=original)
        self.addCleanup(made.close)
        return made

    def link(self, name: str = "one") -> Link:
        made = Link(find(name, None, self.state))
        self.addCleanup(made.close)
        return made

    def opened(self, link: Link) -> tuple[Debugger, LiveTimeline]:
        shim = self.enterContext(feulgama.Shim(SHIM))
        debugger, timeline = open_container(shim, link)
        timeline._say = self.said.append
        self.addCleanup(timeline.close)
        return debugger, timeline

    def assert_at(self, timeline: LiveTimeline, turn: int) -> None:
        """Checks that the run is shown at a turn, by the local that the loop has then."""
        frame, = timeline.inspection().frames
        self.assertEqual((timeline.turn, frame.next, frame.locals[0].number), (turn, turn % 6, (turn + 1) // 6))

    def until(self, what: Callable[[], bool]) -> None:
        last = time.monotonic() + 20
        while not what():
            self.assertLess(time.monotonic(), last)
            time.sleep(0.01)


class Moves(Attached):
    def test_forward_is_the_container_and_back_another_task(self) -> None:
        container = self.container()
        _, timeline = self.opened(self.link())
        self.assert_at(timeline, 600)
        self.assertIs(timeline.seek(607), Why.FOUND)
        self.assert_at(timeline, 607)
        self.assertEqual(container.shim.state("one").turns, 607)
        asked = len(container.asked)
        for turn in (603, 17, 606, 0, 599):
            self.assertIs(timeline.seek(turn), Why.FOUND)
            self.assert_at(timeline, turn)
        self.assertEqual(container.asked[asked:], [])
        self.assertEqual(container.shim.state("one").turns, 607)
        self.assertIs(timeline.seek(610), Why.FOUND)
        self.assert_at(timeline, 610)
        self.assertEqual(container.shim.state("one").turns, 610)

    def test_a_search_from_the_past_goes_on_in_the_container(self) -> None:
        container = self.container()
        debugger, timeline = self.opened(self.link())
        timeline.seek(590)
        debugger.add_breakpoint("place 5", [Place(0, 5)])
        for turn in (593, 599):
            debugger.go_on()
            self.assertEqual((timeline.turn, container.shim.state("one").turns), (turn, 600))
        debugger.go_on()
        self.assertEqual((timeline.turn, container.shim.state("one").turns), (605, 605))

    def test_no_turn_more_than_was_asked_for(self) -> None:
        """A dense search looks at each turn, and would make some hundred at once otherwise."""
        container = self.container()
        _, timeline = self.opened(self.link())
        self.assertIs(timeline.forward(Search(lambda look: look.turn == 900, each_turn=True)), Why.FOUND)
        self.assertEqual((timeline.turn, container.shim.state("one").turns), (900, 900))

    def test_breakpoints_take_few_requests(self) -> None:
        container = self.container()
        debugger, timeline = self.opened(self.link())
        debugger.add_breakpoint("place 1", [Place(0, 1)])
        before = len(container.asked)
        for _ in range(3):
            self.assertIs(debugger.go_on(), Why.FOUND)
        self.assertEqual(timeline.turn, 613)
        self.assertLess(len(container.asked) - before, 60)

    def test_back_to_a_breakpoint(self) -> None:
        container = self.container()
        debugger, timeline = self.opened(self.link())
        debugger.add_breakpoint("place 3", [Place(0, 3)])
        self.assertIs(debugger.go_back(), Why.FOUND)
        self.assert_at(timeline, 597)
        self.assertEqual(container.shim.state("one").turns, 600)

    @pytest.mark.clock
    @pytest.mark.program
    def test_a_turn_that_the_container_runs_past(self) -> None:
        """A run to a far turn may pass it. Then it is shown by another task."""
        self.container()
        _, timeline = self.opened(self.link())
        for turn in (3_000_601, 9_000_600):
            self.assertIs(timeline.seek(turn), Why.FOUND)
            self.assert_at(timeline, turn)
            self.assertGreaterEqual(timeline.live.turn, turn)

    def test_a_trap_ends_the_container_and_is_looked_at_in_another_task(self) -> None:
        container = self.container(TRAPPING_BYTES, 1)
        debugger, timeline = self.opened(self.link())
        self.assertIs(debugger.go_on(), Why.TRAP)
        self.assertEqual((timeline.turn, timeline.trap), (2, "unreachable"))
        state = container.shim.state("one")
        self.assertEqual((str(state.exit), state.turns), ("trap unreachable, exit 134", 3))
        self.assertEqual(goodbye(timeline._link, timeline), "one has ended: trap unreachable, exit 134")

    def test_writes_are_found_in_other_tasks(self) -> None:
        container = self.container(WORDS, 2000)
        debugger, timeline = self.opened(self.link())
        commands = Commands(debugger)
        lines = list(commands.answer("last-write found.words"))
        self.assertIn("found.words was written last by the next instruction", lines[0])
        self.assertLess(timeline.turn, 2000)
        self.assertEqual(container.shim.state("one").turns, 2000)


class Leaving(Attached):
    def test_the_words_at_the_end(self) -> None:
        container = self.container()
        link = self.link()
        _, timeline = self.opened(link)
        timeline.seek(605)
        timeline.seek(3)
        self.assertEqual(goodbye(link, timeline), "one runs on from turn 605")
        link.close()
        self.until(lambda: container.guest is None)
        container.ran = False
        link = self.link()
        _, timeline = self.opened(link)
        self.assertEqual(goodbye(link, timeline), "one stays paused at turn 605")

    def test_breakpoints_are_taken_away_between_moves(self) -> None:
        container = self.container()
        debugger, timeline = self.opened(self.link())
        debugger.add_breakpoint("place 1", [Place(0, 1)])
        debugger.go_on()
        debugger.breakpoints.clear()
        timeline.seek(timeline.turn + 20)
        self.assertEqual(container.breaks, set())


class Going(Attached):
    def test_a_container_that_goes(self) -> None:
        """What was known stays, and the turns before are made once more; the end of the container is not known."""
        container = self.container()
        debugger, timeline = self.opened(self.link())
        container.close()
        with self.assertRaises(ContainerGoneError):
            timeline.seek(601)
        self.assertIs(timeline.seek(603), Why.FOUND)
        self.assert_at(timeline, 603)
        self.assertIs(timeline.seek(5), Why.FOUND)
        self.assert_at(timeline, 5)
        self.assertEqual(timeline.memory_size(), 0)
        self.assertEqual(goodbye(timeline._link, timeline), "one is not there any more")

    def test_a_container_that_goes_with_its_end(self) -> None:
        """As with `ctr run --rm`: its end was told, and nobody asks it for more."""
        container = self.container(WORDS, 700)
        debugger, timeline = self.opened(self.link())
        commands = Commands(debugger)
        self.assertRegex("\n".join(commands.answer("continue")), r"ended after \d+ turns: exit, exit 9")
        end = timeline.turn
        container.close()
        timeline._seen.clear()
        self.assertRegex("\n".join(commands.stopped()), rf"ended after {end} turns: exit, exit 9")
        self.assertEqual(timeline.turn, end)
        self.assertEqual(timeline.memory(1024, 4), b"the ")
        self.assertEqual(list(commands.answer("reverse-stepi"))[0].split(" at ")[0], f"turn {end - 1}")

    def test_a_way_that_is_broken_off(self) -> None:
        """A container that has run for long cannot be made once more in a moment."""
        container = self.container()
        _, timeline = self.opened(self.link())
        container.close()
        with self.assertRaises(ContainerGoneError):
            timeline.seek(601)
        timeline.interrupted.set()
        with self.assertRaises(BrokenOffError):
            timeline.memory_size()
        timeline.interrupted.clear()
        self.assertEqual((timeline.turn, timeline.memory_size()), (600, 0))

    def test_a_container_that_is_killed_and_removed(self) -> None:
        container = self.container()
        debugger, timeline = self.opened(self.link())
        commands = Commands(debugger)
        self.assertEqual(list(commands.stopped())[0], "turn 600 at 0:0 <_start>, 1 frame")
        container.kill()
        self.assertEqual(list(commands.answer("stepi")), ["ended after 600 turns: kill, exit 143"])
        self.assertEqual(list(commands.answer("reverse-stepi 2"))[0].split(" <")[0], "turn 598 at 0:4")
        self.assertEqual(goodbye(timeline._link, timeline), "one has ended: kill, exit 143")

    def test_few_requests_left(self) -> None:
        container = self.container()
        container.left = 400
        _, timeline = self.opened(self.link())
        self.assertIs(timeline.forward(Search(lambda look: look.turn == 640, each_turn=True)), Why.FOUND)
        self.assert_at(timeline, 640)
        self.assertIs(timeline.forward(Search(lambda look: look.turn == 900, each_turn=True)), Why.FOUND)
        self.assert_at(timeline, 900)
        self.assertLess(container.shim.state("one").turns, 900)
        self.assertGreaterEqual(container.left, 0)
        self.assertIn("the container stays where it is", " ".join(self.said))

    def test_few_requests_left_on_the_way(self) -> None:
        """One search looks at more turns than the container has requests for."""
        container = self.container()
        container.left = 400
        _, timeline = self.opened(self.link())
        self.assertIs(timeline.forward(Search(lambda look: look.turn == 900, each_turn=True)), Why.FOUND)
        self.assert_at(timeline, 900)
        self.assertLess(container.shim.state("one").turns, 900)
        self.assertGreaterEqual(container.left, 0)
        self.assertEqual(len(self.said), 1)
        self.assertIn("the container stays where it is", self.said[0])

    def test_few_requests_left_for_a_turn(self) -> None:
        container = self.container()
        container.left = 400
        _, timeline = self.opened(self.link())
        with mock.patch.object(track, "STRIDE", 1):
            self.assertIs(timeline.seek(1300), Why.FOUND)
        self.assert_at(timeline, 1300)
        self.assertLess(container.shim.state("one").turns, 1300)

    def test_few_requests_left_for_memory(self) -> None:
        """Each takes 256 bytes. The container has enough for one page, and not for two."""
        data = bytes(100_000) + b"hi" + bytes(31_070)
        container = self.container(TWO_PAGES)
        _, timeline = self.opened(self.link())
        found: list[bytes] = []
        for length in (65_536, 131_072):
            container.left = timeline._link._most = 390
            timeline._link._asked = 0
            thread = threading.Thread(target=lambda: found.append(timeline.memory(0, length)), daemon=True)
            thread.start()
            thread.join(20)
            self.assertEqual(found, [data[:65_536], data][:len(found)])
        self.assertEqual(len(found), 2)

    def short(self, left: int, module: bytes = FOREVER_BYTES) -> tuple[StubContainer, LiveTimeline]:
        """A container whose shim answers fewer requests than it has said, since it also counts what others ask."""
        container = self.container(module)
        container.other, container.left = {"left": 10_000}, left
        return container, self.opened(self.link())[1]

    def assert_left(self, container: StubContainer, timeline: LiveTimeline) -> None:
        """Checks that the container is left at the turn that it is at, which is known."""
        self.assertFalse(timeline.live.is_usable)
        self.assertEqual(goodbye(timeline._link, timeline), f"one runs on from turn {container.shim.state('one').turns}")

    def test_a_search_beyond_the_last_request(self) -> None:
        """A step is the last one that is answered, and not the look after it."""
        container, timeline = self.short(101)
        self.assertIs(timeline.forward(Search(lambda look: look.turn == 900, each_turn=True)), Why.FOUND)
        self.assert_at(timeline, 900)
        self.assert_left(container, timeline)

    def test_a_way_beyond_the_last_request(self) -> None:
        container, timeline = self.short(100)
        with mock.patch.object(track, "STRIDE", 1):
            self.assertIs(timeline.seek(900), Why.FOUND)
        self.assert_at(timeline, 900)
        self.assert_left(container, timeline)

    def test_looks_beyond_the_last_request(self) -> None:
        """At memory, whose size is looked for by requests that are refused where there is none; and at all else."""
        container, timeline = self.short(3, TWO_PAGES)
        self.assertEqual((timeline.memory(99_999, 4), timeline.memory_size()), (b"\0hi\0", 131_072))
        self.assert_left(container, timeline)

    def test_a_place_beyond_the_last_request(self) -> None:
        container, timeline = self.short(0)
        self.assert_at(timeline, 600)
        self.assertEqual(timeline.output(1), b"")
        self.assert_left(container, timeline)

    def test_none_left(self) -> None:
        container = self.container()
        link = self.link()
        container.left = 0
        with self.assertRaises(JournalFullError):
            link.state("one")
        link._most = 0
        with self.assertRaises(TooFarError):
            self.opened(link)[1].live.look()


class Containers(Attached):
    def fault(self, call: Callable[[], object]) -> str:
        with self.assertRaises(NoContainerError) as found:
            call()
        return str(found.exception)

    def test_names(self) -> None:
        for name in ("abc1", "abc2", "b"):
            self.container(turns=0, name=name)
        self.assertEqual(find("b", None, self.state).container, "b")
        self.assertEqual(find("abc1", "default", self.state).namespace, "default")
        self.assertEqual(self.fault(lambda: find("abc", None, self.state)),
                         "abc is more than one container: default/abc1, default/abc2")
        self.assertIn("no container none is in ", self.fault(lambda: find("none", None, self.state)))
        self.assertIn("; there are abc1, abc2, b", self.fault(lambda: find("none", None, self.state)))
        self.assertIn(", namespace other", self.fault(lambda: find("b", "other", self.state)))

    def test_another_runtime(self) -> None:
        (self.state / TASKS / "default/native").mkdir(parents=True)
        self.assertIn(f"has no {NAME}", self.fault(lambda: find("native", None, self.state)))

    def test_two_debuggers(self) -> None:
        self.container()
        first = self.link()
        self.assertEqual(self.fault(self.link), "one: another debugger is attached to it")
        self.assertEqual(first.state("one").turns, 600)

    def test_what_this_version_does_not_understand(self) -> None:
        container = self.container()
        others: list[dict[str, object]] = [{"protocol": 2}, {"state": {}}, {"module": "x"}]
        for container.other in others:
            self.assertRegex(self.fault(self.link), "version 2|does not understand")
            self.until(lambda: container.guest is None)

    def test_a_shim_that_says_nothing(self) -> None:
        """The connection is closed, so that the container goes on."""
        mine, other = socket.socketpair()
        self.addCleanup(other.close)
        mine.settimeout(0.01)
        door = mock.Mock(container="one", knock=lambda _seconds: mine)
        self.assertEqual(self.fault(lambda: Link(door)), "one: its shim does not answer: timed out")
        self.assertEqual(mine.fileno(), -1)

    def test_an_end_that_is_told_first(self) -> None:
        """By a shim whose container ends just as the debugger comes."""
        container = self.container()
        container.shim.kill("one", 15)
        container.before = b'{"ended":%s}\n' % container.shim.raw(requests.state("one").line, 1).strip()
        link = self.link()
        container.close()
        self.assertEqual(str(link.state("one").exit), "kill, exit 143")

    def test_what_may_not_be_asked(self) -> None:
        container = self.container()
        link = self.link()
        asked: list[Callable[[], object]] = [lambda: link.kill("one"), lambda: link.delete("one"), lambda: link.put(b"")]
        for ask in asked:
            with self.assertRaises(FeulgamaError):
                ask()
        self.assertEqual(container.shim.state("one").turns, 600)

    def test_a_lowered_module(self) -> None:
        """The shim hands over the module as the image has it too, from which names and lines come. It is believed if it
        is lowered to what runs."""
        original = asking("f64.add", [[bits_of("f64", 1.0), bits_of("f64", 0.5)]])
        lowered = lower(original)
        container = self.container(lowered.data, 0, original=original)
        link = self.link()
        runs, source = modules_of(link)
        self.assertEqual((runs, source), (decode(lowered.data), described(original, lowered)))
        link.close()
        self.until(lambda: container.guest is None)
        container.original = asking("f64.sub", [[bits_of("f64", 1.0), bits_of("f64", 0.5)]])
        runs, source = modules_of(self.link())
        self.assertIs(runs, source)


class Configs(unittest.TestCase):
    def test_a_config(self) -> None:
        text = json.dumps({"ociVersion": "1.0.2", "process": {"args": ["a", "b"], "env": ["X=1=2", "Y="], "cwd": "/"},
                           "annotations": {"dev.shim.module": "sha256:old", "other": "kept"}, "hostname": "here",
                           "linux": {"resources": {"memory": {"limit": 65536}}}})
        found = config_of(text, "sha256:new")
        self.assertEqual((found.module, found.args, dict(found.env), found.memory_limit),
                         ("sha256:new", ("a", "b"), {"X": "1=2", "Y": ""}, 65536))
        whole = json.loads(found.text())
        self.assertEqual(whole["annotations"], {"dev.shim.module": "sha256:new", "other": "kept"})
        self.assertEqual(whole["hostname"], "here")

    def test_no_limit(self) -> None:
        text = '{"process":{"args":["a"]},"annotations":{},"linux":{"resources":{"memory":{"limit":-1}}}}'
        self.assertIsNone(config_of(text, "x").memory_limit)


class Command(Attached):
    """`feulgama attach` as a user starts it."""

    def attach(self, script: str, *words: str) -> tuple[int, str, str]:
        out, err = io.StringIO(), io.StringIO()
        with mock.patch("sys.stdin", io.StringIO(script)), contextlib.redirect_stdout(out), contextlib.redirect_stderr(err):
            status = main(["--shim", SHIM, "attach", "--state", str(self.state), *words])
        return status, out.getvalue(), err.getvalue()

    def test_a_session(self) -> None:
        container = self.container()
        with contextlib.ExitStack() as stack:
            if os.geteuid() == 0:  # the folder of the tests is nothing to nobody
                stack.enter_context(mock.patch("feulgama.attach.command.confinement", lambda _memory: None))
            status, out, err = self.attach("stepi 3\nreverse-stepi 603\nbacktrace\nquit\n", "on")
        self.assertEqual((status, err), (0, ""))
        self.assertEqual(out.splitlines()[0], "one stands still; quit leaves it")
        self.assertIn("turn 603 at 0:3 <_start>", out)
        self.assertIn("turn 0 at 0:0 <_start>", out)
        self.assertEqual(out.splitlines()[-1], "one runs on from turn 603")
        self.until(lambda: container.guest is None)

    def test_no_container(self) -> None:
        (self.state / TASKS).mkdir()
        status, out, err = self.attach("", "none")
        self.assertEqual((status, out), (1, ""))
        self.assertEqual(err, f"feulgama: no container none is in {self.state / TASKS}\n")

    def test_commands_that_are_not_text(self) -> None:
        file = self.state / "commands"
        file.write_bytes(b"\xff")
        status, out, err = self.attach("", "--commands", str(file), "one")
        self.assertEqual((status, out), (1, ""))
        self.assertEqual(err, f"feulgama: {file}: commands are text in UTF-8, and byte 0 is not\n")

    def test_a_program_that_is_not_there_leaves_the_container_alone(self) -> None:
        container = self.container()
        with contextlib.redirect_stderr(io.StringIO()) as err:
            status = main(["--shim", "/nothing/here", "attach", "--state", str(self.state), "one"])
        self.assertEqual(status, 1)
        self.assertIn("/nothing/here", err.getvalue())
        self.until(lambda: container.guest is None)


class Confined(unittest.TestCase):
    """What the kernel says of a confined shim."""

    @pytest.mark.program
    def test_rights(self) -> None:
        if os.geteuid() != 0:
            self.skipTest("only root can give up rights")
        if b"AddressSanitizer" in Path(SHIM).read_bytes():
            self.skipTest("the sanitizer of an unproved program needs all of the address space")
        with tempfile.TemporaryDirectory() as folder:
            os.chmod(folder, 0o755)
            program = Path(folder) / "wasm-shim"
            program.write_bytes(Path(SHIM).read_bytes())
            program.chmod(0o755)
            with feulgama.Shim(program, workers=1, confined=confinement()) as shim:
                self.assertEqual(shim.run(EXIT_7).exit.code, 7)
                about = (Path("/proc") / str(shim.pid) / "status").read_text()
                limits = (Path("/proc") / str(shim.pid) / "limits").read_text()
                for kind in ("net", "ipc", "uts"):
                    self.assertNotEqual(os.readlink(f"/proc/{shim.pid}/ns/{kind}"), os.readlink(f"/proc/self/ns/{kind}"))
                with shim.another() as other:
                    self.assertEqual(other.run(EXIT_7).exit.code, 7)  # so it is the program now
                    self.assertIn(f"Uid:\t{NOBODY}\t", (Path("/proc") / str(other.pid) / "status").read_text())
        for line in (f"Uid:\t{NOBODY}\t{NOBODY}\t{NOBODY}\t{NOBODY}\n", f"Gid:\t{NOBODY}\t{NOBODY}\t{NOBODY}\t{NOBODY}\n",
                     "Groups:\t \n", "NoNewPrivs:\t1\n", "CapEff:\t0000000000000000\n", "CapBnd:\t0000000000000000\n"):
            self.assertIn(line, about)
        self.assertRegex(limits, r"Max address space +1073741824 +1073741824")
        self.assertRegex(limits, r"Max core file size +0 +0")

    def test_without_root(self) -> None:
        with mock.patch("os.geteuid", lambda: 1000):
            found = confinement()
        self.assertEqual((found.words[0], found.user), ("prlimit", None))
        self.assertNotIn("setpriv", found.words)
        self.assertFalse([word for word in confinement(0).words if word.startswith("--as")])
