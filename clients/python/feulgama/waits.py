"""The callers of a shim that wait, for threads: each has at most one `wait` that is not answered."""
from __future__ import annotations

import concurrent.futures
import contextlib
import json
import os
import selectors
import threading
from collections.abc import Sequence
from dataclasses import dataclass, field

from feulgama.callers import Ends, close

CHUNK = 1 << 16


@dataclass(slots=True, eq=False)
class Wait:
    """A `wait`: its caller's name, its number among that caller's lines, and the line that answers it once it has come."""
    name: str
    number: int
    reply: concurrent.futures.Future[bytes] = field(default_factory=concurrent.futures.Future)


@dataclass(slots=True, eq=False)
class Waiter:
    """A caller, and what it is asked."""
    ends: Ends
    asked: int = 0
    found: bytes = b""
    wait: Wait | None = None


class Waits:
    """All callers that wait. Whoever waits for a task while another wait for it is not answered is told the same, unless
    the task was changed between."""

    def __init__(self, ends: Sequence[Ends]) -> None:
        self._free = [Waiter(one) for one in ends]
        self._changed = threading.Condition()
        self._open: dict[str, Wait] = {}
        self._is_over, self.asked = False, 0
        self._waiters = list(self._free)
        self._reader: threading.Thread | None = None
        self._is_read = self._is_given_up = False

    def ask(self, task: str, line: bytes, seconds: float) -> Wait | None:
        """The wait for a task, which is sent once a caller is free for it; None if none is within so many seconds. Raises
        EOFError if the shim has ended, and RuntimeError if no thread can be started that reads the replies."""
        with self._changed:
            if self._reader is None:
                self._start_reader()
            if task in self._open:
                return self._open[task]
            if not self._changed.wait_for(lambda: self._free or self._is_over, seconds):
                return None
            if self._is_over:
                raise EOFError
            waiter = self._free.pop()
            waiter.asked, self.asked = waiter.asked + 1, self.asked + 1
            waiter.wait = self._open[task] = wait = Wait(waiter.ends.name, waiter.asked)
            with contextlib.suppress(OSError):  # the reader finds that the shim has ended
                os.write(waiter.ends.lines, line)  # it does not block, and nobody closes the pipe meanwhile
            return wait

    def _start_reader(self) -> None:
        reader = threading.Thread(target=self._read, daemon=True)
        reader.start()
        self._reader, self._is_read = reader, True

    def forget(self, line: bytes) -> None:
        """Lets the next wait for a task be a new one: this line has changed it."""
        with self._changed:
            if self._open:
                self._open.pop(json.loads(line).get("id"), None)

    def _read(self) -> None:
        """Reads the replies of all callers until the shim ends."""
        try:
            with selectors.DefaultSelector() as selector:
                for waiter in self._waiters:
                    selector.register(waiter.ends.replies, selectors.EVENT_READ, waiter)
                while selector.get_map():
                    for key, _ in selector.select():
                        if not self._take(key.data, os.read(key.fd, CHUNK)):
                            selector.unregister(key.fd)
        finally:
            with self._changed:
                self._is_read = False
                self._close_pipes()

    def _take(self, waiter: Waiter, data: bytes) -> bool:
        """Takes what a caller was sent; whether there may be more."""
        waiter.found += data
        with self._changed:
            wait = waiter.wait
            self._is_over = self._is_over or not data
            if wait is not None and not data:
                wait.reply.set_exception(EOFError())
            elif wait is not None and waiter.found.endswith(b"\n"):
                waiter.wait, self._open = None, {task: one for task, one in self._open.items() if one is not wait}
                self._free.append(waiter)
                wait.reply.set_result(waiter.found[:-1])
                waiter.found = b""
            self._changed.notify_all()
        return bool(data)

    def close(self, seconds: float) -> None:
        """Closes the pipes of a shim that has ended, once their ends were read."""
        with self._changed:
            self._is_over = True
        if self._reader is not None:
            self._reader.join(seconds)
        self.give_up()

    def give_up(self) -> None:
        """Closes the pipes, or lets their reader do it once it has read their ends: those of a shim that is ended."""
        with self._changed:
            self._is_given_up = True
            self._close_pipes()

    def _close_pipes(self) -> None:
        """Closes the pipes once, if nobody reads them and nobody asks for more."""
        if self._is_given_up and not self._is_read:
            waiters, self._waiters = self._waiters, []
            close([end for waiter in waiters for end in (waiter.ends.lines, waiter.ends.replies)])
