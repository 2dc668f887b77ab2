"""The shims that a run is debugged with. A shim answers 16,384 requests; before that another one takes its place."""
from __future__ import annotations

import collections

from feulgama.answering import Answering
from feulgama.debug.running import Gait
from feulgama.requests import JOURNAL
from feulgama.shim import Shim

FRESH = JOURNAL // 2


class Shims:
    """Hands out shims for new tasks of one module. The first one is the caller's; the others are started when they are
    needed, and ended when their last task is given back."""

    def __init__(self, first: Shim, data: bytes) -> None:
        self._first, self._data = first, data
        self._latest = first
        self._tasks: collections.Counter[Answering] = collections.Counter()
        self.gait = Gait()
        self.started = 0

    def take(self) -> Shim:
        """A shim that has the module and answers many requests yet, for one task more."""
        if self._latest.left < FRESH:
            before, self._latest = self._latest, self._first.another()
            self.started += 1
            self._latest.ensure(self._data)
            self._end_if_idle(before)
        self._tasks[self._latest] += 1
        return self._latest

    def give_back(self, shim: Answering) -> bool:
        """Takes note that a task is not needed any more; whether its shim has ended with it."""
        self._tasks[shim] -= 1
        return self._end_if_idle(shim)

    def _end_if_idle(self, shim: Answering) -> bool:
        if self._tasks[shim] > 0 or shim in (self._first, self._latest):
            return False
        del self._tasks[shim]
        shim.close()
        return True

    def close(self) -> None:
        """Ends all shims but the first."""
        for shim in {*self._tasks, self._latest} - {self._first}:
            shim.close()
        self._tasks.clear()
        self._latest = self._first
