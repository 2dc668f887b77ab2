"""The task of a container as one of those that a run is debugged with."""
from __future__ import annotations

from feulgama.attach.link import Link
from feulgama.config import Config
from feulgama.debug.look import Look, Place
from feulgama.debug.running import RUN_ROOM, Watch
from feulgama.debug.shims import Shims
from feulgama.debug.track import RESERVE, TooFarError, Track


class FewLeftError(TooFarError):
    """The container answers too few requests yet."""


class LiveTrack(Track):
    """A container's task. It cannot be made anew: one that has passed a turn stays beyond it. Its requests are few, so it
    runs to a breakpoint at once, and never makes a turn more than it is asked for."""

    runs_first = True

    def __init__(self, shims: Shims, config: Config, link: Link) -> None:
        self._shims, self._config = shims, config
        self._shim = self.link = link
        self._id = link.task
        self._breaks: frozenset[Place] = frozenset()
        self._note(link.state_at_first)

    @property
    def is_usable(self) -> bool:
        """Whether it is there, and answers enough requests yet."""
        return not self.link.is_closed and self.link.left >= RESERVE + RUN_ROOM

    def drop(self) -> None:
        """The container stays."""

    def _has_room(self, count: int, watch: Watch | None = None) -> bool:
        if not self.link.is_closed and self.link.left < count:
            raise FewLeftError("the container's wasm-shim answers too few requests yet to be debugged")
        return True

    def _room(self) -> int:
        """All that are left: the container's shim keeps a reserve itself. A link that is closed is asked, too, and says so."""
        return max(2, self.link.left)

    def advance(self, turn: int, watch: Watch) -> None:
        while self.turn < turn and self.exit is None and not watch.is_over():
            if self.is_far(turn):
                self._run(turn, True, frozenset(), watch)
            else:
                self._step_to(turn, watch)

    def looks(self, count: int, repeats: int, breaks: frozenset[Place], watch: Watch) -> list[Look]:
        return super().looks(count, 1, breaks, watch)
