"""A `serve` whose callers live: each has a stream of its own for its lines and one for its replies, over FIFOs or pipes."""
from __future__ import annotations

import json
import os
import select
import subprocess
import time
from collections.abc import Sequence
from pathlib import Path
from typing import Any

from suite.places import built

ENDLESS = '(module (type $e (func)) (func $s (type $e) loop $l br $l end) (export "_start" (func $s)))'
SHORT = '(module (type $e (func)) (func $s (type $e) nop nop nop) (export "_start" (func $s)))'
# The program ends at the latest so long after its owner, in seconds, and some time for a slow machine.
END_SECONDS = 20.0


def line_of(request: dict[str, Any]) -> bytes:
    return json.dumps(request).encode() + b"\n"


def config(digest: str, memory: int | None = None) -> str:
    """The config of a task, which may have so many bytes of memory, or without this as many as by default."""
    process, limit = {"args": ["a"], "cwd": "/"}, {"linux": {"resources": {"memory": {"limit": memory}}}}
    return json.dumps({"ociVersion": "1.0.2", "process": process, "annotations": {"dev.shim.module": digest},
                       **(limit if memory is not None else {})})


class Caller:
    """The host's ends of a caller's two streams."""

    def __init__(self, lines: int, replies: int) -> None:
        self.lines, self.replies, self.rest = lines, replies, b""

    def send(self, op: str, **members: Any) -> None:
        os.write(self.lines, line_of({"op": op, **members}))

    def has_reply(self, seconds: float) -> bool:
        """Whether something can be read within a time: bytes or the end."""
        return b"\n" in self.rest or bool(select.select([self.replies], [], [], seconds)[0])

    def read(self, seconds: float = 60) -> dict[str, Any] | None:
        """The next reply; None at the end of the stream."""
        until = time.monotonic() + seconds
        while b"\n" not in self.rest:
            left = until - time.monotonic()
            assert left > 0 and self.has_reply(left), "no reply"
            data = os.read(self.replies, 65_536)
            if data == b"":
                assert self.rest == b"", "half a line"
                return None
            self.rest += data
        line, self.rest = self.rest.split(b"\n", 1)
        reply: dict[str, Any] = json.loads(line)
        return reply

    def ask(self, op: str, **members: Any) -> dict[str, Any]:
        self.send(op, **members)
        reply = self.read()
        assert reply is not None
        return reply

    def close_lines(self) -> None:
        if self.lines >= 0:
            os.close(self.lines)
            self.lines = -1

    def close_replies(self) -> None:
        if self.replies >= 0:
            os.close(self.replies)
            self.replies = -1


class Live:
    """A program with this number of live callers, of which the first is the owner."""

    def __init__(self, count: int, over: str, folder: Path, *words: str) -> None:
        make = self.over_fifos if over == "fifos" else self.over_pipes
        self.callers: list[Caller] = []
        make(count, folder, words)

    def start(self, words: Sequence[str], pairs: Sequence[str], keep: Sequence[int] = ()) -> None:
        callers = [word for pair in pairs for word in ("--caller", pair)]
        self.process = subprocess.Popen([built(), "serve", *words, *callers], pass_fds=keep, stdin=subprocess.DEVNULL,
                                        stdout=subprocess.PIPE, stderr=subprocess.PIPE)

    def over_pipes(self, count: int, folder: Path, words: Sequence[str]) -> None:
        pipes = [(*os.pipe(), *os.pipe()) for _ in range(count)]
        theirs = [fd for lines, _, _, replies in pipes for fd in (lines, replies)]
        self.start(words, [f"/dev/fd/{lines}:/dev/fd/{replies}" for lines, _, _, replies in pipes], theirs)
        for fd in theirs:
            os.close(fd)
        self.callers = [Caller(lines, replies) for _, lines, replies, _ in pipes]

    def over_fifos(self, count: int, folder: Path, words: Sequence[str]) -> None:
        names = [(folder / f"in{number}", folder / f"out{number}") for number in range(count)]
        for pair in names:
            for name in pair:
                os.mkfifo(name)
        self.start(words, [f"{lines}:{replies}" for lines, replies in names])
        self.callers = [Caller(os.open(lines, os.O_WRONLY), os.open(replies, os.O_RDONLY)) for lines, replies in names]

    @property
    def owner(self) -> Caller:
        return self.callers[0]

    @property
    def others(self) -> list[Caller]:
        return self.callers[1:]

    def endless(self, ids: Sequence[str], text: str = ENDLESS) -> None:
        """Starts a task of this text under each name, by the owner."""
        digest = self.owner.ask("put_text", text=text)["digest"]
        for id in ids:
            assert self.owner.ask("create", id=id, config=config(digest))["ok"]
        for id in ids:
            assert self.owner.ask("start", id=id)["ok"]

    def told(self) -> bytes:
        """What standard error has just now."""
        assert self.process.stderr is not None
        fd = self.process.stderr.fileno()
        found = b""
        while select.select([fd], [], [], 0)[0]:
            data = os.read(fd, 65_536)
            if data == b"":
                break
            found += data
        return found

    def tells(self) -> bytes:
        """What standard error has once it has a line."""
        assert self.process.stderr is not None
        found = b""
        while not found.endswith(b"\n"):
            assert select.select([self.process.stderr], [], [], END_SECONDS)[0], "nothing is told"
            found += os.read(self.process.stderr.fileno(), 65_536)
        return found

    def end(self) -> tuple[int, bytes]:
        """Closes the owner's lines; the status, and what is on standard error."""
        self.owner.close_lines()
        status = self.process.wait(timeout=END_SECONDS)
        assert self.process.stderr is not None
        return status, self.process.stderr.read()

    def stop(self) -> None:
        """Leaves nothing."""
        for caller in self.callers:
            caller.close_lines()
            caller.close_replies()
        if self.process.poll() is None:
            self.process.kill()
        self.process.wait()
        for stream in (self.process.stdout, self.process.stderr):
            if stream is not None:
                stream.close()

    def __enter__(self) -> Live:
        return self

    def __exit__(self, *what: object) -> None:
        self.stop()
