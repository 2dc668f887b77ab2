"""`feulgama attach`: the debugger on a container."""
from __future__ import annotations

import json
import os
import re
import signal
import socket
import stat
import subprocess
from pathlib import Path
from typing import ClassVar

from checks.machine import until

from .base import WithDaemon
from .daemon import Events

TASKS = "state/io.containerd.runtime.v2.task/default"
SESSION = """backtrace
break add
continue
backtrace
info locals
stepi 2
x/14xb 0
reverse-stepi 3
backtrace
info memory
delete
quit
"""
# From the end back to where words.c counts the last word.
LINES = """break end_word
reverse-continue
list
print length
info variables
reverse-step
stepi
goto 20
backtrace
"""


class Session:
    """A debugger that stays attached, with a file of what it writes."""

    def __init__(self, words: list[str], environment: dict[str, str], file: Path) -> None:
        self.file = file
        with file.open("wb") as out:
            self.process = subprocess.Popen(words, stdin=subprocess.PIPE, stdout=out, stderr=out, env=environment)
        until("it is attached", lambda: "turn " in self.text or self.process.poll() is not None)

    @property
    def text(self) -> str:
        """What it has written."""
        return self.file.read_text()

    def ask(self, line: str, answer: str) -> None:
        """Types a line, and waits for something that it writes then."""
        assert self.process.stdin is not None
        before = len(self.text)
        self.process.stdin.write(f"{line}\n".encode())
        self.process.stdin.flush()
        try:
            # A program that was not proved makes its turns slowly.
            until("an answer", lambda: re.search(answer, self.text[before:]) is not None, 180.0)
        except TimeoutError as fault:
            raise AssertionError(f"{line} is answered {self.text[before:]!r}, and not {answer!r}") from fault

    def leave(self) -> int:
        """Ends its input, and so the session; its status."""
        assert self.process.stdin is not None
        self.process.stdin.close()
        return self.process.wait(30)


class Attach(WithDaemon):
    """Sessions with containers that run, have ended, or end meanwhile."""

    images: ClassVar[tuple[str, ...]] = ("hello", "counts", "rounds", "many-rounds", "trap", "words")
    sessions: ClassVar[int] = 0

    def session(self, name: str) -> Session:
        """A debugger that stays attached."""
        type(self).sessions += 1
        made = Session(self.daemon.attach_words(name), self.daemon.environment, self.daemon.at / f"session-{self.sessions}")
        self.addCleanup(made.process.wait)
        self.addCleanup(made.process.kill)
        return made

    def turns(self, text: str) -> list[int]:
        """The turns at which a session was shown, in their order."""
        return [int(turn) for turn in re.findall(r"^turn (\d+) at ", text, re.MULTILINE)]

    # a container that runs

    def test_session(self) -> None:
        """break, continue, frames, locals, steps, memory, steps back; then the container runs on to its end"""
        for image in ("rounds", "many-rounds"):
            name = self.daemon.begin(image)
            ended = self.daemon.attach(SESSION, name)
            if "breakpoint 1\nturn" in ended.out:
                break
            self.daemon.remove(name)  # a busy machine: it ended before the debugger had come
        self.assertEqual((ended.status, ended.err), (0, ""), ended.out)
        first, met, stepped, back = self.turns(ended.out)
        self.assertEqual((stepped, back), (met + 2, met - 1), ended.out)
        self.assertLess(first, met)
        self.assertRegex(ended.out, r"breakpoint 1\nturn \d+ at 2:0 <add>, 2 frames")
        self.assertRegex(ended.out, r"#0 2:0 <add>.*\n#1 3:\d+ <_start>")
        self.assertIn("65 67 75 6e", ended.out.replace("0x", ""))  # begun, of memory
        self.assertRegex(ended.out, rf"turn {met - 1} at 3:\d+ <_start>, 1 frame")
        self.assertIn(f"{name} runs on from turn {stepped}\n", ended.out)
        self.assertEqual(self.daemon.remove(name, 120.0), 7)
        self.assertEqual(self.daemon.log(name).read_text(), "begun\nended\n")
        self.nothing_left(name)

    def test_events(self) -> None:
        """an attached container is shown as paused, and its events say so; a resume by another is refused"""
        events = Events(self.daemon)
        name = self.counting()
        session = self.session(name)
        self.assertEqual(self.daemon.status(name), "paused")
        for word in ("resume", "pause"):
            refused = self.daemon.ctr("tasks", word, name)
            self.assertEqual(refused.status, 1)
            self.assertIn("a debugger is attached", refused.err)
        self.assertEqual(session.leave(), 0)
        self.assertEqual(self.daemon.status(name), "running")
        self.assertEqual(self.end(name), 143)
        until("its deletion is told", lambda: "delete" in events.topics(name))
        events.end()
        self.assertEqual(events.topics(name), ["create", "start", "paused", "resumed", "exit", "delete"])

    def test_two_debuggers(self) -> None:
        """a second debugger is refused, and the first one stays"""
        name = self.counting()
        session = self.session(name)
        second = self.daemon.attach("", name)
        self.assertEqual((second.status, second.out), (1, ""))
        self.assertEqual(second.err, f"feulgama: {name}: another debugger is attached to it\n")
        session.ask("stepi", r"turn \d+ at 1:")
        self.assertEqual(session.leave(), 0)
        self.assertEqual(self.end(name), 143)

    def test_looks_meanwhile(self) -> None:
        """exec works while a debugger is attached, at a stop and while it lets the container run"""
        name = self.counting()
        session = self.session(name)
        for _ in range(3):
            self.assertRegex(self.daemon.ctr("tasks", "exec", "--exec-id=x", name, "inspect").out, r"\Apaused, after \d+ ")
        session.ask("stepi", r"turn \d+ at 1:")
        assert session.process.stdin is not None
        session.process.stdin.write(b"continue\n")
        session.process.stdin.flush()
        until("it runs", lambda: self.daemon.status(name) == "running")
        seen = [self.daemon.ctr("tasks", "exec", "--exec-id=x", name, "state").out for _ in range(5)]
        self.assertTrue(all(re.fullmatch(r"(running|paused), after \d+ instructions\n", text) for text in seen), seen)
        turns = [int(text.split()[2]) for text in seen]
        self.assertEqual(turns, sorted(turns))
        session.process.send_signal(signal.SIGINT)
        until("it is interrupted", lambda: "interrupted" in session.text)
        self.assertEqual(session.leave(), 0)
        self.assertEqual(self.end(name), 143)

    def test_debugger_killed(self) -> None:
        """a debugger is killed while it holds the container at a breakpoint: the container runs on"""
        name = self.counting()
        session = self.session(name)
        session.ask("break 1:7", "breakpoint 1")
        session.ask("continue", r"breakpoint 1\nturn")
        session.process.kill()
        until("it runs on", lambda: self.daemon.status(name) == "running")
        first, second = (self.daemon.ctr("tasks", "exec", "--exec-id=x", name, "state").out for _ in range(2))
        self.assertLess(int(first.split()[2]), int(second.split()[2]))
        self.assertEqual(self.end(name), 143)

    def test_container_killed(self) -> None:
        """a container is killed and removed while a debugger is attached: the debugger says so, and has the turns before"""
        name = self.counting()
        session = self.session(name)
        self.assertEqual(self.end(name), 143)
        session.ask("stepi", r"ended after \d+ turns: kill, exit 143")
        session.ask("reverse-stepi 2", r"turn \d+ at 1:")
        self.assertEqual(session.leave(), 0)
        self.assertIn(f"{name} has ended: kill, exit 143", session.text)
        self.nothing_left(name)

    def test_paused_before(self) -> None:
        """a container that was paused stays paused"""
        name = self.counting()
        self.daemon.must("tasks", "pause", name)
        ended = self.daemon.attach("stepi 5\nquit\n", name)
        self.assertIn(f"{name} stays paused at turn {self.turns(ended.out)[-1]}\n", ended.out)
        self.assertEqual(self.daemon.status(name), "paused")
        self.daemon.must("tasks", "resume", name)
        self.assertEqual(self.end(name), 143)

    # a container that has ended

    def test_lines(self) -> None:
        """a container that has ended is debugged backwards, by lines and variables of C"""
        if not self.setting.lines:
            self.skipTest("packages are missing: python3-pyelftools")
        name = self.daemon.begin("words")
        until("it has ended", lambda: self.daemon.status(name) == "stopped")
        ended = self.daemon.attach(LINES, name)
        self.assertEqual((ended.status, ended.err), (0, ""), ended.out)
        self.assertIn("ended after 8069 turns: exit, exit 9\n", ended.out)
        self.assertRegex(ended.out, r"breakpoint 1\nturn \d+ at 7:\d+ <end_word> words\.c:35, 3 frames")
        self.assertIn("unsigned int 3\n", ended.out)  # the letters of `dog`
        self.assertRegex(ended.out, r"turn 20 at \d+:\d+ <")
        self.assertIn(f"{name} has ended: exit, exit 9\n", ended.out)
        self.assertEqual(self.daemon.remove(name), 9)

    def test_trap(self) -> None:
        """the instruction that trapped is one turn before the end"""
        name = self.daemon.begin("trap")
        until("it has ended", lambda: self.daemon.status(name) == "stopped")
        ended = self.daemon.attach("reverse-stepi\n", name)
        self.assertIn("ended after 1 turns: trap unreachable, exit 134\n", ended.out)
        self.assertRegex(ended.out, r"trap unreachable: the next instruction ends the task\nturn 0 at 2:0 <_start>, 1 frame\n"
                                    r"=>  2:0  unreachable\n")
        self.assertEqual(self.daemon.remove(name), 134)

    def test_removed(self) -> None:
        """a container that was removed, and one that never was, are refused"""
        name = self.daemon.fresh()
        self.daemon.run("hello", name=name)
        for wanted in (name, "nobody-knows-it"):
            ended = self.daemon.attach("", wanted)
            self.assertEqual((ended.status, ended.out), (1, ""))
            self.assertIn(f"feulgama: no container {wanted} is in {self.daemon.at}/state/", ended.err)

    def test_other_runtimes(self) -> None:
        """a container of another runtime is refused"""
        name = self.daemon.fresh()
        folder = self.daemon.at / TASKS / name
        folder.mkdir(parents=True)
        ended = self.daemon.attach("", name)
        self.assertIn("is no container of a module under io.containerd.feulgama.v1", ended.err)
        folder.rmdir()

    # the way in

    def test_socket(self) -> None:
        """the socket of a container is root's alone, and goes with the container"""
        name = self.counting()
        path = self.daemon.at / TASKS / name / "attach.sock"
        about = path.stat()
        self.assertEqual((stat.S_IMODE(about.st_mode), stat.S_ISSOCK(about.st_mode), about.st_uid), (0o600, True, 0))
        self.assertEqual(self.end(name), 143)
        self.assertFalse(path.exists())

    def test_requests_are_counted(self) -> None:
        """the requests of a debugger are among those that the container has"""
        name = self.counting()
        before = self.left(name)
        session = self.session(name)
        for _ in range(10):
            session.ask("stepi", r"turn \d+ at 1:")
        self.assertEqual(session.leave(), 0)
        until("the debugger has left", lambda: self.daemon.status(name) == "running")
        self.assertLess(self.left(name), before - 20)
        self.assertEqual(self.end(name), 143)

    def left(self, name: str) -> int:
        """How many requests a debugger of a container may send, which its shim says first."""
        folder = os.open(self.daemon.at / TASKS / name, os.O_PATH)
        with socket.socket(socket.AF_UNIX) as connection:
            connection.connect(f"/proc/self/fd/{folder}/attach.sock")
            os.close(folder)
            return int(json.loads(connection.makefile("rb").readline())["left"])
