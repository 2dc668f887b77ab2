"""One task, which is moved forward by whole numbers of turns and by nothing else."""
from __future__ import annotations

import time

from feulgama import requests
from feulgama.answering import Answering
from feulgama.config import Config
from feulgama.debug.look import Look, Place, innermost_at, look_of
from feulgama.debug.running import RUN_ROOM, Watch, run_before
from feulgama.debug.shims import Shims
from feulgama.errors import FeulgamaError, WrongStatusError
from feulgama.model import Exit, State, Status

STRIDE = 1000
PAUSED = b'"status":"paused"'
RESERVE = 128  # requests that are kept for breakpoints, and for ending tasks
ROOM = 128
MOST_LATE = 12


class TooFarError(FeulgamaError):
    """A turn that could not be come to, with what a shim answers."""


class Track:
    """A task that is paused after `turn` turns, or has ended after them by `exit`. It makes no turn that it is not
    asked for: a breakpoint at its first instruction holds it when it is started. When its shim will not answer many
    more requests, it is made anew in another one and brought to the same turn."""

    runs_first = False  # whether each step costs too much for a breakpoint to be looked for by steps

    def __init__(self, shims: Shims, config: Config) -> None:
        self._shims, self._config = shims, config
        self._begin()

    def _begin(self) -> None:
        """Has a new task, before its first turn."""
        self._shim: Answering = self._shims.take()
        self._id = self._shim.create(self._config).id
        self.turn = 0
        self.exit: Exit | None = None
        self._breaks: frozenset[Place] = frozenset()
        frames = self._shim.inspect(self._id).frames
        if frames and frames[0].next is not None:
            self._set_breaks(frozenset({Place(frames[0].func, frames[0].next)}))
        self._shim.start(self._id)
        if frames:
            self._set_breaks(frozenset())
        else:
            self._read_state()

    def _read_state(self) -> None:
        self._note(self._shim.state(self._id))

    def _note(self, state: State) -> None:
        self.turn, self.exit = state.turns, state.exit

    def drop(self) -> None:
        """Ends the task and removes it."""
        if self._shims.give_back(self._shim) or self._shim.left < 2:
            return
        if self.exit is None:
            self._shim.kill(self._id)
        self._shim.delete(self._id)

    def _has_room(self, count: int, watch: Watch | None = None) -> bool:
        """Whether its shim answers so many requests yet. If it does not, the task is made anew in another one, and
        brought to its turn, unless that is interrupted."""
        if self._shim.left >= count + RESERVE:
            return True
        other = Track(self._shims, self._config)
        other.advance(self.turn, Watch() if watch is None else Watch(watch.interrupted))
        if other.turn != self.turn:
            other.drop()
            return False
        self.drop()
        self._shim, self._id, self._breaks = other._shim, other._id, other._breaks
        if self._shim.left < count + RESERVE:
            raise TooFarError(f"a shim answers too few requests to come to turn {self.turn} and go on from there")
        return True

    def _room(self) -> int:
        """How many requests may be sent."""
        return max(0, self._shim.left - RESERVE)

    def _set_breaks(self, wanted: frozenset[Place]) -> None:
        """Lets the task have these breakpoints and no others."""
        if self.exit is not None:
            return
        for place in self._breaks - wanted:
            self._shim.unbreak(self._id, *place)
        for place in wanted - self._breaks:
            self._shim.break_(self._id, *place)
        self._breaks = wanted

    # Going on.

    def advance(self, turn: int, watch: Watch) -> None:
        """Goes on to a turn that is not before its own, or to its end. Stops early, at a turn that it has then, if the
        move is over before."""
        late = 0
        while self.turn < turn and self.exit is None and not watch.is_over():
            if not self.is_far(turn):
                self._step_to(turn, watch)
                continue
            self._run(turn, True, frozenset(), watch)
            if self.turn <= turn:
                self._shims.gait.was_in_time()
            else:
                late += 1
                self._begin_again(turn, late)

    def _begin_again(self, turn: int, late: int) -> None:
        """Takes a new task in the place of one that has passed the turn that it was to come to."""
        self._shims.gait.was_late()
        self.drop()
        self._begin()
        if late > MOST_LATE:
            raise TooFarError(f"this machine is too busy to stop a task at turn {turn}: it was paused too late {late} times")

    def _step_to(self, turn: int, watch: Watch) -> None:
        """Makes some or all of the turns up to one, by steps."""
        if not self._has_room(ROOM, watch):
            return
        self._set_breaks(frozenset())
        full, rest = divmod(turn - self.turn, STRIDE)
        steps = min(full, self._shims.gait.batch(), self._room() - 1)
        last = requests.step(self._id, STRIDE)
        lines = last.line * steps
        if steps == full and rest:
            last = requests.step(self._id, rest)
            lines += last.line
            steps += 1
        begin, before = time.monotonic(), self.turn
        replies = self._shim.raw(lines, steps).split(b"\n")
        try:
            self._note(last.result(replies[-2]))
        except WrongStatusError:
            self._read_state()
        self._shims.gait.note_steps(self.turn - before, time.monotonic() - begin)

    def _run(self, turn: int, is_exact: bool, breaks: frozenset[Place], watch: Watch) -> None:
        """Runs at full speed, up to a turn or a moment before it, to a breakpoint or to its end."""
        if self._has_room(RUN_ROOM, watch):
            self._set_breaks(breaks)
            was = State(self._id, Status.PAUSED, self.turn)
            self._note(run_before(self._shim, was, turn, is_exact, self._shims.gait, watch))

    def run_to(self, breaks: frozenset[Place], turn: int, watch: Watch, is_exact: bool = False) -> Look | None:
        """Runs at full speed to the next of these breakpoints, and where that is; None if it is at none of them: it has
        ended, has come to a turn or has passed it, if `is_exact` to a moment before it, or the move is over."""
        before = self.turn
        self._run(turn, is_exact, breaks, watch)
        look = self.look() if self.exit is None and self.turn > before else None
        return look if look is not None and look.place in breaks else None

    def is_far(self, turn: int) -> bool:
        """Whether a run goes on towards a turn, and steps alone would be many."""
        return self._shims.gait.is_far(turn - self.turn)

    def batch(self) -> int:
        """How many steps may be made at once, for an interrupt not to wait long."""
        return self._shims.gait.batch()

    def looks(self, count: int, repeats: int, breaks: frozenset[Place], watch: Watch) -> list[Look]:
        """Makes this many turns, this many times or less often, each time up to a breakpoint or the task's end; where
        it is after each time, but not of its end. With breakpoints there are looks at these alone."""
        if not self._has_room(ROOM, watch):
            return []
        self._set_breaks(breaks)
        repeats = min(repeats, self._room() // 2)
        step, inspect = requests.step(self._id, count), requests.inspect(self._id)
        replies = self._shim.raw((step.line + inspect.line) * repeats, 2 * repeats)
        lines = replies.split(b"\n")
        self.turn = look_of(lines[-2]).turn
        made = repeats
        if replies.count(PAUSED) < repeats:
            made = next(at for at in range(repeats) if PAUSED not in lines[2 * at])
            self._note_end(step, lines[2 * made])
        shown = lines[1:2 * made:2]
        if breaks:
            matches = innermost_at(breaks).match
            shown = [line for line in shown if matches(line)]
        return list(map(look_of, shown))

    def _note_end(self, step: requests.Request[State], line: bytes) -> None:
        try:
            state = step.result(line)
        except WrongStatusError:
            self._read_state()
            return
        if state.status is Status.STOPPED:
            self._note(state)

    # What is there.

    def look(self) -> Look:
        """Where the task is."""
        self._has_room(1)
        return look_of(self._shim.raw(requests.inspect(self._id).line, 1)[:-1])

    def output(self, stream: int) -> bytes:
        """What it has written to a stream."""
        self._has_room(1)
        return self._shim.output(self._id, stream)

    def peek(self, ranges: list[tuple[int, int]]) -> list[bytes | FeulgamaError]:
        """The bytes of memory from these addresses on, so many of each; the refusal of a range that is not there."""
        found: list[bytes | FeulgamaError] = []
        while len(found) < len(ranges):
            self._has_room(min(ROOM, len(ranges) - len(found)))
            some = ranges[len(found):len(found) + self._room()]
            answers = self._shim.call_all([requests.peek(self._id, *one) for one in some])
            found += answers
        return found
