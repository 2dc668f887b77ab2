"""What a debugger needs of a shim, or of something that stands between it and one."""
from __future__ import annotations

from collections.abc import Sequence
from typing import TypeVar

from feulgama.calls import Calls
from feulgama.errors import FeulgamaError
from feulgama.model import State
from feulgama.operation import Asks, Request

T = TypeVar("T")


class Answering(Calls, Asks):
    """What answers requests one after another."""

    @property
    def left(self) -> int:
        """How many requests it answers yet, at least."""
        raise NotImplementedError

    def close(self) -> None:
        """Ends it, or the way to it."""
        raise NotImplementedError

    def wait(self, task: str, timeout: float | None = None) -> State:
        """Waits until a task is not running; its state."""
        raise NotImplementedError

    def call_all(self, asked: Sequence[Request[T]]) -> list[T | FeulgamaError]:
        """The results of several requests. One that is refused has its RefusalError as result, and does not stop the
        others."""
        raise NotImplementedError

    def raw(self, lines: bytes, count: int) -> bytes:
        """The lines that this many lines are answered, as bytes."""
        raise NotImplementedError
