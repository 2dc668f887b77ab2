"""The run of a container as a line of turns. The container itself moves forward only: the turns before the one that it is
at are those of tasks of the same module and config, in a shim of the debugger's own."""
from __future__ import annotations

from collections.abc import Callable
from functools import partial
from typing import TypeVar

from feulgama.attach.link import Link
from feulgama.attach.live import FewLeftError, LiveTrack
from feulgama.config import Config
from feulgama.debug.hunt import Search
from feulgama.debug.running import Interrupt
from feulgama.debug.timeline import Timeline, Why
from feulgama.debug.track import Track
from feulgama.debug.trail import Trail
from feulgama.errors import FeulgamaError, JournalFullError
from feulgama.model import Stream
from feulgama.shim import Shim
from feulgama.wasm.module import Module

T = TypeVar("T")
LONG_WAY = 1_000_000_000  # turns that take some seconds


class BrokenOffError(FeulgamaError):
    """The user has broken off the way to the turn that is shown."""


class LiveTimeline(Timeline):
    """A container's run. A move that goes beyond the turn that the container is at moves it. `say` is told what a user
    should know of that."""

    def __init__(self, shim: Shim, config: Config, module: Module, link: Link, say: Callable[[str], None]) -> None:
        self._link, self._say = link, say
        self._has_told = False
        super().__init__(shim, config, module)

    def _first_track(self) -> Track:
        self.live = LiveTrack(self._shims, self._config, self._link)
        return self.live

    # Which task shows or makes a turn.

    def _behind(self, turn: int) -> Track | None:
        if self.live.turn <= turn:
            if self.live.is_usable:
                return self.live
            self._tell_unusable()
        own = [track for track in (self._track, *self._parked) if track is not self.live and track.turn <= turn]
        found = max(own, key=lambda track: track.turn) if own else None
        way = turn - (found.turn if found is not None else 0)
        if way > LONG_WAY:
            self._say(f"a task of the debugger's own makes {way} turns to get there; Ctrl-C breaks it off")
        return found

    def _take(self, turn: int, interrupted: Interrupt) -> Why:
        was_behind = self.live.turn <= turn
        found = super()._take(turn, interrupted)
        if was_behind and self.live.turn > turn and not interrupted.is_set():
            self._say(f"the container could not be stopped at turn {turn}: it is at turn {self.live.turn}")
            return super()._take(turn, interrupted)
        return found

    def _here(self) -> Track:
        """As always; but the way may be as long as the container has run, so it can be broken off."""
        while self._track.turn != self.turn:
            if self._take(self.turn, self.interrupted) is Why.INTERRUPTED:
                raise BrokenOffError("interrupted; the run is shown where it was")
        return self._track

    def _note_end(self, track: Track) -> None:
        super()._note_end(track)
        if track.exit is not None:
            self._seen.pop(track.turn, None)  # where it was before somebody killed it

    def _leave_unusable(self) -> None:
        """Lets a task of the debugger's own take the place of a container that is gone, or answers too few requests."""
        if self._track is self.live and not self.live.is_usable:
            self._tell_unusable()
            self._track = self.new_track()

    def _tell_unusable(self) -> None:
        if not self._has_told and not self._link.is_closed:
            self._say("the container's wasm-shim answers few requests yet, so the container stays where it is, and a task of "
                      "the debugger's own goes on")
        self._has_told = True

    def _with_memory(self) -> tuple[Track, Trail | None]:
        self._leave_unusable()
        return super()._with_memory()

    # What the container may have too few requests for. Then a task of the debugger's own does it.

    def _gone_on(self, work: Callable[[], T]) -> T:
        """What something comes to, done once more if the container answers no more requests on the way."""
        try:
            return work()
        except (FewLeftError, JournalFullError):
            self.live.turn = max(self.live.turn, self._link.turns)
            self._leave_unusable()
            return work()

    def _line(self) -> bytes:
        return self._gone_on(super()._line)

    def memory(self, address: int, length: int) -> bytes:
        return self._gone_on(partial(super().memory, address, length))

    def memory_size(self) -> int:
        return self._gone_on(super().memory_size)

    def seek(self, turn: int) -> Why:
        return self._gone_on(partial(super().seek, turn))

    def backward(self, search: Search) -> Why:
        return self._gone_on(partial(super().backward, search))

    def forward(self, search: Search, limit: int | None = None) -> Why:
        return self._gone_on(partial(self._forward, search, limit))

    def output(self, stream: int) -> bytes:
        self._leave_unusable()
        return self._gone_on(partial(super().output, stream))

    def new_output(self) -> dict[Stream, bytes]:
        """As always; but nothing of a container that is gone, whose output is in its own log."""
        return {} if self._link.is_closed else super().new_output()

    # Searching.

    def _forward(self, search: Search, limit: int | None) -> Why:
        self._to_container()
        if self._track is self.live and self.live.exit is None:
            self._leave_unusable()
        if self.turn >= self.live.turn or not self.live.is_usable or limit is not None and limit <= self.live.turn:
            return super().forward(search, limit)
        why = super().forward(search, self.live.turn)
        if why is not Why.LIMIT:
            return why
        self._to_container()
        return super().forward(search, limit)

    def _to_container(self) -> None:
        """Shows the turn that the container is at by the container."""
        if self.turn == self.live.turn and self._track is not self.live and self.live.is_usable:
            self._park(self._track, self.live)
            self._track = self.live
