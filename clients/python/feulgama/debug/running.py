"""A task that a shim's workers run, far faster than steps, is looked at now and then and paused.

A pause takes hold at the end of a slice, so nobody can choose its turn; but the reply after it says which one it is.
To come to a turn, a task is paused a moment before it, and goes the rest by steps. How long that moment is hangs on
how fast the task runs and on how late a sleeping client wakes up, so both are measured.
"""
from __future__ import annotations

import contextlib
import time
from dataclasses import dataclass, field

from feulgama.answering import Answering
from feulgama.errors import WrongStatusError
from feulgama.model import State, Status

FIRST_REST, LONGEST_SLEEP = 0.0003, 0.02
SHARE = 32
SLICE = 10_000
UNKNOWN_WAY = 100_000
BATCH_SECONDS, LEAST_BATCH, FIRST_BATCH, MOST_BATCH = 0.1, 16, 128, 1024
LEAST_MARGIN, MOST_MARGIN, MOST_LAST_TURNS = 0.01, 0.5, 4_000_000
RUN_ROOM, LAST_REQUESTS = 256, 32


class Interrupt:
    """Whether what is going on has to end. The handler of a signal or another thread may set it. It has no lock: an event of
    `threading` has one, and a handler would wait for it for ever while its own thread holds it."""

    def __init__(self) -> None:
        self._is_set = False

    def set(self) -> None:
        """Asks for the end."""
        self._is_set = True

    def clear(self) -> None:
        """Takes that back."""
        self._is_set = False

    def is_set(self) -> bool:
        """Whether the end was asked for."""
        return self._is_set


@dataclass(frozen=True, slots=True)
class Watch:
    """What ends a move early: an interrupt, and a moment of the clock. `since` is when the move began, or when something
    came of it last: the longer ago that is, the more rarely it is looked at."""
    interrupted: Interrupt = field(default_factory=Interrupt)
    since: float = field(default_factory=time.monotonic)
    deadline: float = float("inf")

    def is_over(self) -> bool:
        """Whether the move has to end."""
        return self.interrupted.is_set() or time.monotonic() > self.deadline


class Gait:
    """How many turns tasks of a module make in a second, as they run and by steps, 0.0 while that is not known; and how
    many seconds before a turn a task that runs is paused."""

    def __init__(self) -> None:
        self.speed = 0.0
        self.step_speed = 0.0
        self.margin = LEAST_MARGIN
        self.late = 0

    def note(self, turns: int, seconds: float) -> None:
        """Takes note of how long some turns took, if they are enough to tell."""
        if turns >= SLICE and seconds > 0:
            self.speed = turns / seconds

    def note_steps(self, turns: int, seconds: float) -> None:
        """The same of turns that were made by steps."""
        if turns >= SLICE and seconds > 0:
            self.step_speed = turns / seconds

    def seconds(self, turns: float) -> float:
        """How long some turns take."""
        return turns / self.speed if self.speed else float("inf")

    def last_turns(self) -> float:
        """How many turns before a turn a task is paused: two slices at least, since a pause takes hold at the end of one.
        They are made by steps, each a request, so they are not too many."""
        return min(max(self.margin * self.speed, 2 * SLICE), MOST_LAST_TURNS)

    def is_far(self, turns: int) -> bool:
        """Whether a run comes nearer to what is so many turns ahead, and steps alone would be many."""
        return turns > (max(2 * SLICE, 1.5 * self.last_turns()) if self.speed else UNKNOWN_WAY)

    def batch(self) -> int:
        """How many steps of 1,000 turns may be sent at once, for an interrupt not to wait long."""
        if not self.step_speed:
            return FIRST_BATCH
        return int(min(MOST_BATCH, max(LEAST_BATCH, BATCH_SECONDS * self.step_speed / 1000)))

    def was_late(self) -> None:
        """Takes note that a task has passed the turn that it was to come to."""
        self.margin = min(2 * self.margin, MOST_MARGIN)
        self.late += 1

    def was_in_time(self) -> None:
        """Takes note that a task was paused before the turn that it was to come to."""
        self.margin = max(0.9 * self.margin, LEAST_MARGIN)


def rest(seconds: float, watch: Watch) -> None:
    """Sleeps, unless the move is over."""
    end = time.monotonic() + seconds
    while (left := end - time.monotonic()) > 0 and not watch.is_over():
        time.sleep(min(left, LONGEST_SLEEP))


def run_before(shim: Answering, was: State, turn: int, is_exact: bool, gait: Gait, watch: Watch) -> State:
    """Lets a task that is paused run, and pauses it at a turn or later, or if `is_exact` a moment before; earlier if
    the move is over, or if the shim will not answer many more requests. What it is doing then: it may have met a
    breakpoint, have ended, or be beyond the turn nevertheless."""
    shim.resume(was.id)
    begin = before = time.monotonic()
    turns, pause = was.turns, FIRST_REST
    while True:
        rest(pause, watch)
        state, now = shim.state(was.id), time.monotonic()
        if state.status is not Status.RUNNING:
            return state
        gait.note(state.turns - was.turns, now - begin)
        recent = (state.turns - turns) / (now - before) if state.turns - turns >= 10 * SLICE else 0.0
        gait.speed = max(gait.speed, recent)
        before, turns = now, state.turns
        left = turn - turns - (gait.last_turns() if is_exact else 0)
        if left <= 0 or watch.is_over() or shim.left < LAST_REQUESTS:
            return paused(shim, was.id)
        pause = max(FIRST_REST, min((now - watch.since) / SHARE, gait.seconds(turn - turns) / 2))


def paused(shim: Answering, task: str) -> State:
    """Pauses a task, unless it has stopped by itself."""
    with contextlib.suppress(WrongStatusError):
        shim.pause(task)
    return shim.wait(task)
