"""`exec` in a container of a module: a look at the module."""
from __future__ import annotations

import re

from checks.machine import Ended, until

from .base import WithDaemon
from .daemon import Events

# $start of counts.wat: one local, and a loop whose `loop` is the instruction 6.
FRAME = (r"#0 _start, function 1, at instruction \d+\n    local0 = \d+ \(i64\)\n(    operands: [^\n]*\n)?"
         r"(    in the blocks at: 6\n)?")


class Looks(WithDaemon):
    """inspect, peek and state."""

    def look(self, name: str, *words: str) -> Ended:
        """What an exec writes."""
        return self.daemon.ctr("tasks", "exec", "--exec-id=look", name, *words)

    def test_inspect(self) -> None:
        """inspect shows the frames of a container that runs, with names, and it runs on"""
        name = self.counting()
        first, second = self.look(name, "inspect"), self.look(name, "inspect")
        for ended in (first, second):
            self.assertRegex(ended.out, rf"\Arunning, after \d+ instructions\n{FRAME}\Z", ended.err)
        turns = [int(re.findall(r"after (\d+)", ended.out)[0]) for ended in (first, second)]
        self.assertLess(*turns)
        self.assertEqual(self.daemon.status(name), "running")
        self.end(name)

    def test_peek(self) -> None:
        """peek shows bytes of the module's memory"""
        name = self.counting()
        ended = self.look(name, "peek", "0x0", "14")
        line = "00000000  08 00 00 00 06 00 00 00  62 65 67 75 6e 0a        |........begun.|\n"
        self.wrote(ended, 0, line)
        outside = self.look(name, "peek", "65530", "16")
        self.wrote(outside, 1, "")
        self.assertIn("refused 13 OutOfRange", outside.err)
        self.end(name)

    def test_state(self) -> None:
        """state says what a container is doing, also a paused one, which stays paused"""
        name = self.counting()
        self.assertRegex(self.look(name, "state").out, r"\Arunning, after \d+ instructions\n\Z")
        self.daemon.must("tasks", "pause", name)
        text = self.look(name, "state").out
        self.assertRegex(text, r"\Apaused, after \d+ instructions\n\Z")
        self.assertEqual(self.look(name, "state").out, text)
        self.assertEqual(self.daemon.status(name), "paused")
        self.end(name)

    def test_other_programs(self) -> None:
        """a program is refused, and the reason says what can be asked"""
        name = self.counting()
        for words in (["sh"], ["peek", "1"], ["inspect", "now"]):
            ended = self.look(name, *words)
            self.wrote(ended, 1, "")
            self.assertIn("what can be asked is inspect, peek ADDRESS LENGTH, or state: not implemented", ended.err)
        self.end(name)

    def test_events(self) -> None:
        """the exit of an exec is told as that of the exec, once"""
        events = Events(self.daemon)
        name = self.counting()
        self.look(name, "state")
        self.end(name)
        until("the end is told", lambda: "delete" in events.topics(name))
        events.end()
        self.assertEqual(events.topics(name), ["create", "start", "exec-added", "exec-started", "exit", "exit", "delete"])
        ids = [event["id"] for topic, event in events.of(name) if topic == "exit"]
        self.assertEqual(ids, ["look", name])
