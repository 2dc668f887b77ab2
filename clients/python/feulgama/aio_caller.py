"""A caller of a shim for asyncio: its lines are sent at once, and answered in their order."""
from __future__ import annotations

import asyncio
import collections
import os
from collections.abc import Callable
from dataclasses import dataclass
from typing import Any

from feulgama.callers import Ends, close
from feulgama.operation import Request
from feulgama.said import Line

CHUNK = 1 << 18
LONGEST_REPLY = 1 << 24
Future = asyncio.Future[Any]


@dataclass(frozen=True, slots=True)
class Asked:
    """A request that was sent, as which line, and what waits for its result."""
    request: Request[Any]
    line: Line
    future: Future


class Caller:
    """A caller. `answered` is called with each request and its reply. In place of a request comes None with a line that is
    no reply, and with no bytes once the program has ended."""

    def __init__(self, ends: Ends, answered: Callable[[Caller, Asked | None, bytes], None]) -> None:
        self._ends, self._answered, self._loop = ends, answered, asyncio.get_running_loop()
        self._unsent, self._found = bytearray(), bytearray()
        self._count = 0
        self._is_open = True
        self.pending: collections.deque[Asked] = collections.deque()
        self._loop.add_reader(ends.replies, self._read)

    def send(self, request: Request[Any]) -> Future:
        """Sends a request; its result."""
        future: Future = self._loop.create_future()
        self._count += 1
        self.pending.append(Asked(request, Line(self._ends.name, self._count), future))
        if self._is_open:
            self._unsent += request.line
            self._write()
        return future

    def _write(self) -> None:
        """Sends as much as the pipe takes."""
        try:
            del self._unsent[:os.write(self._ends.lines, self._unsent)]
        except BlockingIOError:
            pass
        except OSError:  # the reader finds that the shim has ended
            self._unsent.clear()
        if self._unsent:
            self._loop.add_writer(self._ends.lines, self._write)
        else:
            self._loop.remove_writer(self._ends.lines)

    def _read(self) -> None:
        """Takes what there is of replies."""
        data = os.read(self._ends.replies, CHUNK)
        if not data:
            self._loop.remove_reader(self._ends.replies)
            self._answered(self, None, b"")
            return
        *lines, rest = (self._found + data).split(b"\n") if b"\n" in data else [self._found + data]
        self._found = bytearray(rest)
        for line in lines:
            self._answered(self, self.pending.popleft() if self.pending else None, bytes(line))
        if len(self._found) > LONGEST_REPLY:
            self._answered(self, None, bytes(self._found))

    def close_lines(self) -> None:
        """Closes the pipe of its lines, once all are sent that the pipe takes now."""
        if self._is_open:
            self._is_open = False
            self._loop.remove_writer(self._ends.lines)
            close([self._ends.lines])

    def close(self) -> None:
        """Closes both pipes."""
        self.close_lines()
        self._loop.remove_reader(self._ends.replies)
        close([self._ends.replies])
