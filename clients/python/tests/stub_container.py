"""A container as the containerd shim shows it to a debugger: its door, over a task of a shim of the tests. The Go code of
the real one is tested beside it; together they are tested by clients/containerd/test."""
from __future__ import annotations

import contextlib
import json
import socket
import threading
from pathlib import Path
from typing import Any

import feulgama
from feulgama import requests
from feulgama.attach.door import NAME, TASKS
from feulgama.config import Config, digest_of
from feulgama.errors import FeulgamaError

ALLOWED = {"state", "inspect", "peek", "output", "pause", "resume", "step", "break", "unbreak"}
REFUSED = b'{"error":"BadRequest","number":1,"ok":false}\n'
FULL = b'{"error":"JournalFull","number":15,"ok":false}\n'


class StubContainer:
    """A container of a module that is at a turn, in a folder of states of tasks. `left` is how many requests it answers
    yet; `asked` are the operations that it was asked, in their order. `other` has what it says first in another way, `before`
    what it says before that."""

    def __init__(self, program: str, state: Path, module: bytes, turns: int = 0, name: str = "one",
                 env: tuple[str, ...] = (), original: bytes | None = None) -> None:
        self.shim = feulgama.Shim(program)
        self.module, self.original, self.name = module, original, name
        self.left, self.asked, self.ran = 10_000, list[str](), True
        self.other: dict[str, object] = {}
        self.before = b""
        self.shim.ensure(module)
        config = json.loads(Config(digest_of(module), ("m.wasm",)).text())
        config["process"]["env"], config["hostname"] = list(env), "of the container"
        self.config = json.dumps(config)
        self._begin(turns)
        folder = state / TASKS / "default" / name
        folder.mkdir(parents=True)
        self._socket = socket.socket(socket.AF_UNIX, socket.SOCK_STREAM)
        self._socket.bind(str(folder / NAME))
        self._socket.listen()
        self.guest: socket.socket | None = None
        self.breaks = set[tuple[int, int]]()
        threading.Thread(target=self._receive, daemon=True).start()

    def _begin(self, turns: int) -> None:
        """Makes the task, and lets it make some turns."""
        self.shim.create(self.config, self.name)
        frame = self.shim.inspect(self.name).frames[0]
        assert frame.next is not None
        self.shim.break_(self.name, frame.func, frame.next)
        self.shim.start(self.name)
        self.shim.unbreak(self.name, frame.func, frame.next)
        while turns > 0:
            self.shim.step(self.name, min(1000, turns))
            turns -= 1000

    def kill(self) -> None:
        """Ends the task from outside, which the debugger is told unasked, and removes the container."""
        self.shim.kill(self.name, 15)
        state = json.dumps(self._state())
        if self.guest is not None:
            self.guest.sendall(b'{"ended":%s}\n' % state.encode())
        self.close()

    def close(self) -> None:
        """Removes the container, with its debugger."""
        self._socket.close()
        if self.guest is not None:
            with contextlib.suppress(OSError):
                self.guest.shutdown(socket.SHUT_RDWR)
        self.shim.close()

    def _receive(self) -> None:
        with contextlib.suppress(OSError):
            while True:
                guest = self._socket.accept()[0]
                if self.guest is not None:
                    guest.sendall(b'{"ok":false,"error":"another debugger is attached to it"}\n')
                    guest.close()
                    continue
                self.guest = guest
                threading.Thread(target=self._serve, args=(guest,), daemon=True).start()

    def _serve(self, guest: socket.socket) -> None:
        state = json.loads(self.shim.raw(requests.state(self.name).line, 1))
        first = {"ok": True, "protocol": 1, "container": self.name, "ran": self.ran, "state": state, "left": self.left,
                 "module": self.module.hex(), "config": self.config,
                 **({} if self.original is None else {"original": self.original.hex()}), **self.other}
        with contextlib.suppress(OSError, FeulgamaError), guest, guest.makefile("rb") as lines:
            guest.sendall(self.before + json.dumps(first).encode() + b"\n")
            for line in lines:
                guest.sendall(self._answer(json.loads(line)))
        self.guest = None

    def _answer(self, wish: dict[str, Any]) -> bytes:
        self.asked.append(wish["op"])
        if wish["op"] not in ALLOWED:
            return REFUSED
        self.left -= 1
        if self.left < 0:
            return FULL
        line = json.dumps({**wish, "id": self.name}).encode() + b"\n"
        reply = self.shim.raw(line, 1)
        if b'"pausing"' in reply:
            reply = json.dumps(self._state(), separators=(",", ":")).encode() + b"\n"
        if json.loads(reply)["ok"] and wish["op"] in ("break", "unbreak"):
            change = self.breaks.add if wish["op"] == "break" else self.breaks.discard
            change((wish["func"], wish["place"]))
        if b'"status":"stopped"' in reply:
            reply += b'{"ended":%s}\n' % reply.strip()
        return reply

    def _state(self) -> dict[str, Any]:
        self.shim.wait(self.name)
        return dict(json.loads(self.shim.raw(requests.state(self.name).line, 1)))
