"""A run of a module as a line of turns: any of them can be gone to, forward and back.

A task makes the same turns each time, so the turn n of a new task is the turn n of every other. To go back, a task that
is behind is taken, or a new one, and makes turns up to the one that was asked for.
"""
from __future__ import annotations

import enum
import time
from collections.abc import Callable

from feulgama import requests
from feulgama.config import Config
from feulgama.debug.hunt import LONG_WAY, Hunt, Search
from feulgama.debug.look import Look, look_of
from feulgama.debug.running import Interrupt, Watch
from feulgama.debug.shims import Shims
from feulgama.debug.track import TooFarError, Track
from feulgama.debug.trail import Trail, leave_trail
from feulgama.debug.watched_module import MOST_WATCHED, NotWatchableError
from feulgama.debug.watched_module import Watch as Watched
from feulgama.debug.writes import Writes
from feulgama.errors import FeulgamaError
from feulgama.model import Exit, Inspection, Stream
from feulgama.shim import Shim
from feulgama.wasm.module import Module

MOST_PEEK = 256
MOST_PARKED = 8
TRAIL = 128
LEAST_LEG = 0.5
NEAR, NEAR_TURNS, MANY_HITS = 50_000, 4096, 2000
PAGE, MOST_PAGES = 65_536, 256
LAST_TURN = 10**15


class Why(enum.Enum):
    """Why a search ended."""
    FOUND = "found"
    ENDED = "ended"
    BEGIN = "begin"
    LIMIT = "limit"
    INTERRUPTED = "interrupted"
    TRAP = "trap"


class Timeline:
    """A run of a module. `turn` is where it is shown. `interrupted` may be set by another thread or by a signal's
    handler; it breaks off what is going on, and the caller clears it. `progress` is called now and then on the way of
    a long search, and `searching` on that of a search for writes, which moves nothing."""

    def __init__(self, shim: Shim, config: Config, module: Module) -> None:
        self._config, self._module = config, module
        self._shims = Shims(shim, module.sent)
        self._track = self._first_track()
        self._parked: list[Track] = []
        self._seen: dict[int, bytes] = {}
        self._trail: Trail | None = None
        self._end: tuple[int, Exit] | None = None
        self._note_end(self._track)
        self.turn = self._track.turn
        self.interrupted = Interrupt()
        self.progress: Callable[[], None] = lambda: None
        self.searching: Callable[[], None] = lambda: None
        self._shim, self._writes = shim, dict[tuple[int, int, bool], Writes]()
        self._size = -1, 0  # a turn, and how many bytes memory has there
        self._told, self._told_turn = dict.fromkeys(Stream, 0), 0

    def _first_track(self) -> Track:
        """The task that is shown first."""
        return self.new_track()

    @property
    def shims_started(self) -> int:
        """How many shims were started beside the first."""
        return self._shims.started

    @property
    def late(self) -> int:
        """How often a task was paused too late, and another one had to come to its turn."""
        return self._shims.gait.late

    @property
    def exit(self) -> Exit | None:
        """How the task ended, if it has ended at this turn."""
        return self._end[1] if self._end is not None and self._end[0] == self.turn else None

    @property
    def trap(self) -> str | None:
        """The name of the trap that the next turn is, if that is known."""
        return self._end[1].trap if self._end is not None and self._end[0] == self.turn + 1 else None

    # What is there at this turn.

    def inspection(self) -> Inspection:
        """The frames."""
        return requests.inspect("").result(self._line())

    def look(self) -> Look:
        """The place that is next, and the number of frames."""
        return look_of(self._line())

    def _line(self) -> bytes:
        if self.turn not in self._seen:
            if len(self._seen) > 4 * TRAIL:
                self._seen.clear()
            self._seen[self.turn] = self._here().look().line
        return self._seen[self.turn]

    def memory(self, address: int, length: int) -> bytes:
        """Bytes of memory from an address on; fewer where memory ends."""
        track, trail = self._with_memory()
        length = max(0, min(length, self.memory_size() - address))
        found = b""
        for part in track.peek([(address + at, min(MOST_PEEK, length - at)) for at in range(0, length, MOST_PEEK)]):
            if isinstance(part, FeulgamaError):
                raise part
            found += part
        return found if trail is None else trail.memory_at(self.turn, address, found)

    def memory_size(self) -> int:
        """How many bytes of memory there are."""
        if self._size[0] != self.turn:
            least = self._size[1] if 0 <= self._size[0] < self.turn else 0  # memory never shrinks
            self._size = self.turn, size_of(self._with_memory()[0], least // PAGE)
        return self._size[1]

    def _with_memory(self) -> tuple[Track, Trail | None]:
        """A task whose memory is that of this turn, or together with a trail tells it."""
        trail = self._trail
        if trail is not None and trail.end == self._track.turn and trail.knows_memory(self.turn):
            return self._track, trail
        return self._here(), None

    def output(self, stream: int) -> bytes:
        """What was written to a stream up to this turn."""
        return self._here().output(stream)

    def new_output(self) -> dict[Stream, bytes]:
        """What was written to the streams up to this turn, but for what this method has answered before, in this run. At
        a turn that is not after the last one for which it was asked there is nothing, and no task is moved."""
        if self.turn <= self._told_turn:
            return {}
        self._told_turn = self.turn
        found = {}
        for stream in Stream:
            written = self.output(stream)
            found[stream] = written[self._told[stream]:]
            self._told[stream] = len(written)
        return found

    # Going to a turn.

    def begin_again(self) -> None:
        """Goes to the first turn, as of a new run, whose output is new too."""
        self.seek(0)
        self._told, self._told_turn = dict.fromkeys(Stream, 0), 0

    def seek(self, turn: int) -> Why:
        """Goes to a turn, or to the task's end if that is before it."""
        if turn in self._seen and turn < self._track.turn:
            self.turn = turn
            return Why.FOUND
        way_back = turn < self.turn and turn > LONG_WAY
        reached = self._take(max(0, turn - TRAIL) if way_back else turn, self.interrupted)
        if way_back and reached is Why.FOUND:
            self._trail = leave_trail(self._track, self._module, turn)
            self._seen = dict(self._trail.lines)
        if reached is not Why.INTERRUPTED or self._track.turn <= turn:
            self.turn = self._track.turn
        return reached

    def _here(self) -> Track:
        """The task, at this turn."""
        while self._track.turn != self.turn:
            self._take(self.turn, Interrupt())
        return self._track

    def _take(self, turn: int, interrupted: Interrupt) -> Why:
        """Lets the task that is nearest behind a turn, or a new one, go on to it and be the one that is shown."""
        track = self._behind(turn) or self.new_track()
        try:
            track.advance(turn, Watch(interrupted))
        except TooFarError:
            if track is not self._track:
                self._park(track, track)
            raise
        self._note_end(track)
        is_reached = track.turn == turn or track.exit is not None
        if track is not self._track:
            self._park(self._track if is_reached else track, track)
        if not is_reached:
            return Why.INTERRUPTED
        self._track = track
        return Why.FOUND if track.turn == turn else Why.ENDED

    def _behind(self, turn: int) -> Track | None:
        """The task that is nearest behind a turn, or at it, if there is one."""
        behind = [track for track in (self._track, *self._parked) if track.turn <= turn]
        return max(behind, key=lambda found: found.turn) if behind else None

    def _note_end(self, track: Track) -> None:
        if track.exit is not None:
            self._end = track.turn, track.exit

    def _park(self, parked: Track, other: Track) -> None:
        """Keeps a task for later; if there are too many, the one that was kept longest is removed."""
        self._parked = [track for track in self._parked if track not in (parked, other)] + [parked]
        if len(self._parked) > MOST_PARKED:
            self._parked.pop(0).drop()

    # Searching.

    def forward(self, search: Search, limit: int | None = None) -> Why:
        """Goes on to the next turn that is looked for, at most to the turn `limit`, or to the task's end."""
        goal = LAST_TURN if limit is None else limit
        if not search.breaks and not search.each_turn:
            return self._run_on(goal)
        track, hunt, told = self._here(), Hunt(search, self.interrupted, is_patient=True), time.monotonic()
        while track.exit is None and track.turn < goal:
            if self.interrupted.is_set():
                return Why.INTERRUPTED
            for look in hunt.on(track, goal):
                if look.turn <= goal and search.takes(look):
                    self._note_end(track)
                    return self.seek(look.turn)
            self._note_end(track)
            if track.turn > goal:
                why = self.seek(goal)
                return Why.LIMIT if why is Why.FOUND else why
            self.turn = track.turn
            if time.monotonic() > told + LEAST_LEG:
                self.progress()
                told = time.monotonic()
        return Why.ENDED if track.exit is not None else Why.LIMIT

    def _run_on(self, goal: int) -> Why:
        """Goes on to a turn or to the task's end."""
        track, since = self._here(), time.monotonic()
        while track.turn < goal and track.exit is None:
            if self.interrupted.is_set():
                return Why.INTERRUPTED
            now = time.monotonic()
            track.advance(goal, Watch(self.interrupted, since, now + max(LEAST_LEG, (now - since) / 2)))
            self._note_end(track)
            self.turn = track.turn
            self.progress()
        if track.turn > goal:
            why = self.seek(goal)
            return Why.LIMIT if why is Why.FOUND else why
        return Why.LIMIT if track.turn == goal else Why.ENDED

    def new_track(self) -> Track:
        """A task of its own, before its first turn."""
        return Track(self._shims, self._config)

    def writes(self, address: int, size: int, changes: bool) -> Writes:
        """The writes to some bytes in this run; only those that change one, if `changes` is set. Raises
        NotWatchableError if they cannot be watched."""
        key = address, size, changes
        if key not in self._writes:
            track = self.new_track()
            there = min(size, size_of(track) - address)
            if not 0 < size <= MOST_WATCHED or address < 0 or 0 < there < size or address + size > self.memory_size():
                raise NotWatchableError(f"{size} bytes at {address:#x} cannot be watched: it takes 1 to {MOST_WATCHED}, which "
                                        "are in memory together")
            before = track.peek([(address, size)])[0] if there > 0 else bytes(size)
            self._park(track, track)
            if isinstance(before, FeulgamaError):
                raise before
            watch = Watched(address, size, changes, before)
            self._writes[key] = Writes(self._shim, self._module, self._config, watch, lambda: self.searching())
        return self._writes[key]

    def close(self) -> None:
        """Ends the shims that were started on the way."""
        for writes in self._writes.values():
            writes.close()
        self._writes.clear()
        self._shims.close()

    def backward(self, search: Search) -> Why:
        """Goes back to the last turn before this one that is looked for, or to the first turn."""
        end = self.turn
        near = max(0, end - NEAR_TURNS) if search.is_dense() else 0
        found = self._last_of_parts(search, [0, near, end] if near else [0, end])
        if self.interrupted.is_set():
            return Why.INTERRUPTED
        why = self.seek(found or 0)
        return Why.BEGIN if found is None and why is Why.FOUND else why

    def _last_of_parts(self, search: Search, ends: list[int]) -> int | None:
        """The last turn that is looked for, in the last of the parts between these turns that has one."""
        for begin, end in reversed(list(zip(ends, ends[1:]))):
            found = self._last(search, begin, end)
            if found is not None or self.interrupted.is_set():
                return found
        return None

    def _last(self, search: Search, begin: int, end: int) -> int | None:
        """The last turn that is looked for, from a turn on and before another one. If there are many on the way, the
        parts that are later are looked at first."""
        if self._take(begin, self.interrupted) is Why.INTERRUPTED:
            return None
        track, hunt = self._track, Hunt(search, self.interrupted, is_patient=False)
        found = begin if search.takes(track.look()) else None
        while track.exit is None and track.turn < end and not self.interrupted.is_set():
            if hunt.hits > MANY_HITS and end - track.turn > 2 * NEAR:
                later = self._last_of_parts(search, [track.turn, (track.turn + end) // 2, end - NEAR, end])
                return found if later is None else later
            looks = hunt.on(track, end)
            found = max((look.turn for look in looks if look.turn < end and search.takes(look)), default=found)
        self._note_end(track)
        return found


def size_of(track: Track, least: int = 0) -> int:
    """How many bytes of memory a task has, which has so many pages at least: no bytes may be asked for up to there."""
    most = MOST_PAGES if isinstance(track.peek([((least + 1) * PAGE, 0)])[0], bytes) else least
    while least < most:
        middle = (least + most + 1) // 2
        if isinstance(track.peek([(middle * PAGE, 0)])[0], bytes):
            least = middle
        else:
            most = middle - 1
    return least * PAGE
