"""How a search goes on: it meets the turns that are looked for by steps where they are near, and by runs where they are
far.

A step is a request for each 1,000 turns, or for each breakpoint. A run costs a few requests, however far it goes;
but each time that it meets a breakpoint they are asked again.
"""
from __future__ import annotations

import time
from collections.abc import Callable
from dataclasses import dataclass

from feulgama.debug.look import Look, Place
from feulgama.debug.running import Interrupt, Watch
from feulgama.debug.track import STRIDE, Track

MOST_BREAKS = 32
MOST_REPEATS = 512
PATIENT_LOOKS, PATIENT_LOOKS_FAR = 64, 1024
LONG_WAY = 1_000_000
RUN_AFTER = 64
NEAR_HIT = 20_000
LEAST_LEG = 0.5


@dataclass(frozen=True, slots=True)
class Search:
    """What is looked for: a turn that `accept` takes, among those at `breaks`, or among all if `each_turn` is set."""
    accept: Callable[[Look], bool]
    breaks: frozenset[Place] = frozenset()
    each_turn: bool = False

    def is_dense(self) -> bool:
        """Whether each turn is looked at; also if there are more breakpoints than a task may have."""
        return self.each_turn or len(self.breaks) > MOST_BREAKS

    def takes(self, look: Look) -> bool:
        """Whether a look is one that is looked for."""
        return (self.each_turn or look.place in self.breaks) and self.accept(look)


def at_any(breaks: frozenset[Place]) -> Search:
    """The search for the next breakpoint."""
    return Search(lambda _look: True, breaks)


class Hunt:
    """A search on its way. `hits` is how many turns it has met that may be the ones looked for."""

    def __init__(self, search: Search, interrupted: Interrupt, is_patient: bool) -> None:
        self._is_dense = search.is_dense()
        self._breaks = frozenset() if self._is_dense else search.breaks
        self._interrupted = interrupted
        self._is_patient = is_patient
        self._repeats, self._looked = 1 if is_patient else MOST_REPEATS, 0
        self._runs = False
        self._since = time.monotonic()
        self.hits = 0

    def on(self, track: Track, goal: int) -> list[Look]:
        """Lets a task go on; what it has met, in its order. It may have passed the turn `goal`, if it has met nothing
        before that; or be beyond what it has met."""
        is_run = self._runs or track.runs_first and not self._is_dense
        found = self._by_run(track, goal) if is_run and track.is_far(goal) else self._by_steps(track, goal)
        if found:
            self._since = time.monotonic()
            self.hits += len(found)
        return found

    def _by_steps(self, track: Track, goal: int) -> list[Look]:
        left = goal - track.turn
        count = 1 if self._is_dense else min(STRIDE, left)
        repeats = min(self._repeats, left // count, track.batch())
        patience = PATIENT_LOOKS if track.turn < LONG_WAY else PATIENT_LOOKS_FAR
        found = track.looks(count, repeats, self._breaks, Watch(self._interrupted))
        self._looked += repeats
        if self._looked >= patience or not self._is_patient:
            self._repeats = min(2 * self._repeats, MOST_REPEATS)
        self._runs = not self._is_dense and self._looked >= RUN_AFTER and 4 * len(found) < repeats
        return found

    def _by_run(self, track: Track, goal: int) -> list[Look]:
        before, now = track.turn, time.monotonic()
        deadline = now + max(LEAST_LEG, (now - self._since) / 2)
        found = track.run_to(self._breaks, goal, Watch(self._interrupted, self._since, deadline))
        if found is None:
            return []
        if found.turn - before < NEAR_HIT:
            self._runs, self._repeats, self._looked = False, 1, 0
        return [found]
