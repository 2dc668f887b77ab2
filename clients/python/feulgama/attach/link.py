"""A connection to a container's shim, which asks its requests of the container's task."""
from __future__ import annotations

import contextlib
import json
import re
from collections.abc import Mapping, Sequence
from typing import Any, TypeVar

from feulgama import requests
from feulgama.answering import Answering
from feulgama.attach.door import Door, NoContainerError
from feulgama.errors import BadReplyError, FeulgamaError, JournalFullError
from feulgama.model import State
from feulgama.operation import Request

T = TypeVar("T")
PROTOCOL = 1
PATIENCE = 30.0  # seconds for an answer
AT_ONCE = 16  # lines that are sent before their replies are read
ENDED = b'{"ended":'
WRONG_STATUS = b'{"error":"WrongStatus","number":11,"ok":false}'
JOURNAL_FULL = b'{"error":"JournalFull","number":15,"ok":false}'
TURNS = re.compile(rb'"n":(\d+),"ok":true')


class ContainerGoneError(FeulgamaError):
    """The container is not there any more."""


class Link(Answering):
    """The way to the task of a container, which stands still until this is closed, but for what is asked here. `ran` says
    whether it runs on then. `module` is what runs, `original` what was lowered to it, None if it is the same; `config` is
    the text of the config of the task. `state_at_first` is what it was doing at first, `turns` how many turns it had made when
    that was told last."""

    def __init__(self, door: Door) -> None:
        self._socket = door.knock(PATIENCE)
        self._lines = self._socket.makefile("rb")
        self.is_closed = False
        self._asked = 0
        self._ended: Mapping[str, Any] | None = None
        try:
            first = self._first(door)
            self.container, self.task = str(first["container"]), str(first["state"]["id"])
            self.ran, self._most = bool(first["ran"]), int(first["left"])
            self.state_at_first = requests.state_of(first["state"])
            self.turns = self.state_at_first.turns
            self.module, self.config = bytes.fromhex(first["module"]), str(first["config"])
            self.original = bytes.fromhex(first["original"]) if first.get("original") else None
        except (KeyError, TypeError, ValueError) as error:
            self.close()
            raise NoContainerError(f"{door.container}: the shim answers what this version does not understand") from error
        except OSError as error:
            self.close()
            raise NoContainerError(f"{door.container}: its shim does not answer: {error}") from error
        except FeulgamaError:
            self.close()
            raise

    def _first(self, door: Door) -> Mapping[str, Any]:
        """What the shim says first. Raises NoContainerError if that is why nobody can attach."""
        first = json.loads(self._reply())  # the end of the task may be told before it
        if first["ok"] is not True:
            raise NoContainerError(f"{door.container}: {first['error']}")
        if first["protocol"] != PROTOCOL:
            raise NoContainerError(f"{door.container}: its shim speaks version {first['protocol']} with debuggers, and this "
                                   f"one {PROTOCOL}")
        return dict(first)

    def close(self) -> None:
        """Leaves the container."""
        self.is_closed = True
        self._lines.close()
        self._socket.close()

    @property
    def left(self) -> int:
        return max(0, self._most - self._asked)

    def call(self, request: Request[T]) -> T:
        """The result of a request."""
        return request.result(self.raw(request.line, 1)[:-1])

    def wait(self, task: str, timeout: float | None = None) -> State:
        """The state of the task. A pause is answered once the task stands still, so there is nothing to wait for."""
        return self.call(requests.state(task))

    def call_all(self, asked: Sequence[Request[T]]) -> list[T | FeulgamaError]:
        replies = self.raw(b"".join(request.line for request in asked), len(asked)).split(b"\n")
        results: list[T | FeulgamaError] = []
        for request, line in zip(asked, replies):
            try:
                results.append(request.result(line))
            except (BadReplyError, JournalFullError):
                raise
            except FeulgamaError as refused:
                results.append(refused)
        return results

    def raw(self, lines: bytes, count: int) -> bytes:
        split = lines.split(b"\n")[:count]
        found: list[bytes] = []
        for at in range(0, count, AT_ONCE):
            found += self._some(split[at:at + AT_ONCE])
        return b"".join(line + b"\n" for line in found)

    def _some(self, lines: list[bytes]) -> list[bytes]:
        """The replies to a few lines."""
        replies: list[bytes] = []
        self._asked += len(lines)
        try:
            if not self.is_closed:
                with contextlib.suppress(BrokenPipeError, ConnectionResetError):  # what was said before can be read
                    self._socket.sendall(b"".join(line + b"\n" for line in lines))
                while len(replies) < len(lines):
                    replies.append(self._noted(self._reply()))
        except (OSError, ContainerGoneError):
            self.close()
        return replies + [self._without_container(line) for line in lines[len(replies):]]

    def _reply(self) -> bytes:
        """The next line that is a reply. The shim also tells unasked how the task has ended."""
        while (line := self._line()).startswith(ENDED):
            self._ended = json.loads(line)["ended"]
        return line

    def _noted(self, line: bytes) -> bytes:
        """A reply, of which is noted what it says of the task. The shim also counts what others ask it, so it may answer no
        more requests before its time."""
        if (told := TURNS.search(line)) is not None:
            self.turns = int(told[1])
        if line == JOURNAL_FULL:
            self._most = 0
        return line

    def _line(self) -> bytes:
        line = self._lines.readline()
        if line[-1:] != b"\n":
            raise ContainerGoneError("the container is not there any more")
        return line[:-1]

    def _without_container(self, line: bytes) -> bytes:
        """What a line is answered once the container is gone. How it ended is known, if it has ended itself."""
        op = json.loads(line)["op"]
        if self._ended is None or op in ("output", "peek"):
            raise ContainerGoneError(f"the container {self.container} is not there any more")
        if op in ("state", "wait"):
            return json.dumps(self._ended, sort_keys=True, separators=(",", ":")).encode()
        if op == "inspect":
            return b'{"frames":[],"id":"%s","n":%d,"ok":true}' % (self.task.encode(), self._ended["n"])
        return WRONG_STATUS
