"""What an editor has sent and what is not answered yet."""
from __future__ import annotations

import collections
import contextlib
import threading
from collections.abc import Iterator

from feulgama.dap.wire import BadMessageError, Message
from feulgama.debug.running import Interrupt

# What breaks off a move of the run, and what is answered on the way of a run that goes on.
BREAKS_OFF = ("pause", "restart", "terminate", "disconnect")
ASIDES = ("threads", "setBreakpoints", "setFunctionBreakpoints", "setInstructionBreakpoints", "setDataBreakpoints",
          "setExceptionBreakpoints")


class Inbox:
    """The messages of an editor, in their order. The last is None, or what is wrong with the one that follows. One thread puts
    them in, and another one takes them out. `interrupted` is set while one is there that breaks off what is running."""

    def __init__(self) -> None:
        self.interrupted = Interrupt()
        self._changed = threading.Condition()
        self._messages = collections.deque[Message | BadMessageError | None]()
        self._breaking: tuple[str, ...] = BREAKS_OFF

    def put(self, message: Message | BadMessageError | None) -> None:
        """Adds a message."""
        with self._changed:
            self._messages.append(message)
            if self._breaks_off(message):
                self.interrupted.set()
            self._changed.notify()

    def get(self) -> Message | BadMessageError | None:
        """Takes the next message, once there is one."""
        with self._changed:
            self._changed.wait_for(lambda: len(self._messages) > 0)
            found = self._messages.popleft()
            self._note()
            return found

    def has(self, command: str) -> bool:
        """Whether a request of that name is there."""
        with self._changed:
            return any(isinstance(found, dict) and found.get("command") == command for found in self._messages)

    @contextlib.contextmanager
    def running(self) -> Iterator[None]:
        """Lets what is answered on the way of a run break it off, too."""
        self._let_break_off(BREAKS_OFF + ASIDES)
        try:
            yield
        finally:
            self._let_break_off(BREAKS_OFF)

    def _let_break_off(self, commands: tuple[str, ...]) -> None:
        with self._changed:
            self._breaking = commands
            self._note()

    def asides(self) -> list[Message]:
        """Takes what is answered on the way of a run."""
        with self._changed:
            found = [one for one in self._messages if isinstance(one, dict) and one.get("command") in ASIDES]
            for one in found:
                self._messages.remove(one)
            self._note()
            return found

    def _breaks_off(self, message: Message | BadMessageError | None) -> bool:
        return not isinstance(message, dict) or message.get("command") in self._breaking

    def _note(self) -> None:
        """Sets the interrupt, or takes it back."""
        if any(map(self._breaks_off, self._messages)):
            self.interrupted.set()
        else:
            self.interrupted.clear()
