"""Which turns of a run write to some bytes of memory, found by runs of a module that keeps the last one.

What is found is exact. The last write up to a turn takes one pass of the watched module, however many writes there are;
so does the first one after it. A pass goes at the speed of a run, so many times slower as the module has more to do.
"""
from __future__ import annotations

import contextlib
from collections.abc import Callable
from dataclasses import replace

from feulgama import requests
from feulgama.config import Config, digest_of
from feulgama.debug.hunt import Hunt, at_any
from feulgama.debug.look import Look
from feulgama.debug.running import Interrupt
from feulgama.debug.running import Watch as Moment
from feulgama.debug.shims import FRESH, Shims
from feulgama.debug.track import Track
from feulgama.debug.watched_module import NotWatchableError, Watch, watched
from feulgama.errors import FeulgamaError
from feulgama.shim import Shim
from feulgama.wasm.module import Module

FAR = 10**15
WALK, LOOKS = 400, 32  # so few turns are made one by one, so many at once
MANY = 2000  # so many stops are made, rather than another pass
WINDOW = 64  # so many times as far as the last two writes are apart is looked at before them
MOST_PASSES = 3
SHARE = 0.9


class InterruptedSearchError(NotWatchableError):
    """A search that was broken off."""


class Search:
    """How a search is broken off, and what is told of it on its way."""

    def __init__(self, interrupted: Interrupt, progress: Callable[[], None]) -> None:
        self.interrupted, self._progress = interrupted, progress

    def go_on(self) -> None:
        """Tells that it goes on. Raises InterruptedSearchError if it is broken off."""
        if self.interrupted.is_set():
            raise InterruptedSearchError("interrupted")
        self._progress()


class Pass:
    """One run of the watched module, which goes on as far as it is asked for. `hits` are the writes after the turn `after`,
    in their order, and `last` is the last one up to it, 0 if there is none. Both are known up to the turn `known`. A write
    is told by how many turns are made after it."""

    def __init__(self, shim: Shim, module: Module, config: Config, watch: Watch, after: int) -> None:
        self._watched = watched(module, config, watch, after)
        if shim.left >= FRESH:
            shim.ensure(self._watched.data)
        self._shim, self._shims = shim, Shims(shim, self._watched.data)
        self._config = replace(config, module=digest_of(self._watched.data))
        self._track = Track(self._shims, self._config)
        self._places = self._watched.shows | {self._watched.stop, self._watched.keeps}
        self.after, self.known, self.last, self.hits = after, 0, 0, list[int]()
        self.is_spent = self._is_last_known = self._was_shown = False

    @property
    def is_over(self) -> bool:
        """Whether the task has ended, so that all writes after the turn are known."""
        return self._track.exit is not None

    def knows(self, turn: int) -> bool:
        """Whether the writes up to a turn are known."""
        return self.after <= turn and (self._is_last_known or bool(self.hits)) and (self.is_over or turn <= self.known)

    def stops_up_to(self, turn: int) -> float:
        """About how many stops it makes up to a turn."""
        return len(self.hits) * max(0, turn - self.known) / max(1, self.known - self.after)

    def _note(self, look: Look) -> None:
        """Takes note of where it is."""
        if look.place not in self._places:
            return
        frame = requests.inspect("").result(look.line).frames[0]
        if look.place == self._watched.stop:
            turn, before = frame.locals[0].number, frame.operands[-1].number
            self.last = self.last if self.hits else before
            if turn not in self.hits[-1:]:
                self.hits.append(turn)
            self.known, self._is_last_known = turn, True
        elif look.place == self._watched.keeps:
            self._note_last(frame.operands[-1].number)
        else:
            self.known = frame.operands[-1].number
            self._note_last(frame.operands[-2].number)
            self._is_last_known = self._is_last_known or self.known >= self.after

    def _note_last(self, turn: int) -> None:
        """Takes note of the last write of all."""
        self._was_shown = True
        if turn <= self.after and not self.hits:
            self.last = turn

    def _walk(self, search: Search) -> None:
        """Makes some turns one by one, up to where it is known of more turns, or to the end."""
        looks, before = [self._track.look()], self.known
        while True:
            for look in looks:
                self._note(look)
            self._is_last_known = self._is_last_known or self.is_over and self._was_shown
            if self.is_over or self.known > before:
                return
            search.go_on()
            looks = self._track.looks(1, LOOKS, frozenset(), Moment(search.interrupted))

    # All up to the turn, and the last of it.

    def settle(self, search: Search) -> None:
        """Goes on until the last write up to its turn is known."""
        while not self._is_last_known:
            if self.is_over:
                self._settle_from_its_end(search)
                return
            search.go_on()
            if self.after - self.known > WALK:
                self._go_near(self.after - self.known, search)
            if not self.is_over:
                self._walk(search)

    def _go_near(self, left: int, search: Search) -> None:
        """Goes on for so many turns of the original, or fewer. It makes no fewer turns of its own for them."""
        moment, most = Moment(search.interrupted), SHARE * self._track.turn / self.known if self.known else 1.0
        goal, self._was_shown = self._track.turn + int(left * max(1.0, most)), False
        if self._track.is_far(goal):
            self._track.run_to(frozenset({self._watched.stop}), goal, moment, is_exact=True)
        else:
            self._track.advance(self._track.turn + left, moment)

    def _settle_from_its_end(self, search: Search) -> None:
        """The same once it has ended too soon: a new task goes to a moment before that. It does not stop on its way, so no
        other write is known then."""
        end, back, self.is_spent = self._track.turn, WALK, True
        self._check_end()
        while not self._is_last_known:
            self._track.drop()
            self._track, self.known, self._was_shown = Track(self._shims, self._config), 0, False
            while self._track.turn < end - back and not self.is_over:
                search.go_on()
                self._track.advance(end - back, Moment(search.interrupted))
            while not self.is_over:
                self._walk(search)
            self._is_last_known, back = self._is_last_known or back >= end, 8 * back

    def _check_end(self) -> None:
        """With what is added a task may end sooner."""
        if self._track.exit is not None and self._track.exit.trap == "exhausted":
            raise NotWatchableError("with what is added to watch it, the task has more frames or values than it may have")

    # The writes after it.

    def follow(self, turn: int, end: int, most: int, search: Search) -> bool:
        """Goes on until the first write after a turn is known, or all up to the turn `end`; whether it has come so far with
        at most so many stops."""
        hunt, most = Hunt(at_any(frozenset({self._watched.stop})), search.interrupted, is_patient=True), most + len(self.hits)
        while not self.is_over and self.known < end and not any(hit > turn for hit in self.hits[-1:]):
            if len(self.hits) > most:
                return False
            rate = max(1.0, self._track.turn / self.known) if self.known else 1.0
            goal = min(FAR, self._track.turn + max(WALK, int((end - self.known) * rate)))
            if not self._stops(hunt, goal, search) and not self.is_over and end < FAR:
                self._walk(search)
        if not any(hit > turn for hit in self.hits[-1:]) and self.is_over:
            self._check_end()
        return True

    def _stops(self, hunt: Hunt, goal: int, search: Search) -> bool:
        """Goes on to some stops, or to a turn of its own or beyond; whether there were some."""
        while not self.is_over and self._track.turn < goal:
            search.go_on()
            looks = hunt.on(self._track, goal)
            for look in looks:
                self._note(look)
            if looks:
                return True
        return False

    def close(self) -> None:
        """Ends its task, and the shims that were started for it."""
        with contextlib.suppress(FeulgamaError):
            self._track.drop()
            self._shim.remove(digest_of(self._watched.data))
        self._shims.close()


class Writes:
    """The writes to some bytes, over a whole run."""

    def __init__(self, shim: Shim, module: Module, config: Config, watch: Watch, progress: Callable[[], None]) -> None:
        self._shim, self._module, self._config, self._watch = shim, module, config, watch
        self._progress = progress
        self._passes: list[Pass] = []
        self._answers: list[int] = []

    def _new_pass(self, after: int) -> Pass:
        """One more pass; the oldest of too many is given up."""
        self._passes.append(Pass(self._shim, self._module, self._config, self._watch, after))
        if len(self._passes) > MOST_PASSES:
            self._passes.pop(0).close()
        return self._passes[-1]

    def _give_up(self, passed: Pass) -> None:
        """A pass that has stopped too often."""
        self._passes.remove(passed)
        passed.close()

    def _begun(self, turn: int) -> Pass | None:
        """The pass that is best to tell the writes round a turn."""
        fit = [one for one in self._passes if one.after <= turn and (one.knows(turn) or one.stops_up_to(turn) <= MANY)]
        return max(fit, key=lambda one: (one.knows(turn), one.after)) if fit else None

    def last(self, turn: int, interrupted: Interrupt) -> int | None:
        """The last write among the turns up to one: how many turns are made after it. None if there is none."""
        search = Search(interrupted, self._progress)
        passed = self._begun(turn)
        if passed is None and (begin := self._before(turn)) is not None:
            passed = self._new_pass(begin)
        if passed is not None and passed.after < turn and not self._follows(passed, turn, turn, search):
            passed = None
        if passed is None:
            passed = self._new_pass(turn)
        if not any(hit <= turn for hit in passed.hits[:1]):
            passed.settle(search)
        found = max((hit for hit in passed.hits if hit <= turn), default=passed.last)
        if passed.is_spent:
            self._give_up(passed)
        self._answers = [*self._answers[-1:], found]
        return found or None

    def _before(self, turn: int) -> int | None:
        """Where a pass may begin to stop, if writes are looked for one after the other, backward: so that the next ones will
        be known too."""
        if len(self._answers) < 2 or turn != self._answers[1] - 1:
            return None
        return max(0, turn - WINDOW * (self._answers[0] - self._answers[1]))

    def next(self, turn: int, interrupted: Interrupt) -> int | None:
        """The first write after a turn, in the same way; None if there is none up to the end of the run."""
        return self.next_up_to(turn, FAR, interrupted)

    def next_up_to(self, turn: int, end: int, interrupted: Interrupt) -> int | None:
        """The first write after a turn and up to another one."""
        search = Search(interrupted, self._progress)
        passed = self._begun(turn)
        if passed is None or not self._follows(passed, turn, end, search):
            passed = self._new_pass(turn)
            self._follows(passed, turn, end, search)
        return next((hit for hit in passed.hits if turn < hit <= end), None)

    def _follows(self, passed: Pass, turn: int, end: int, search: Search) -> bool:
        """Whether a pass goes on so far; one that stops too often on its way is given up."""
        if passed.follow(turn, end, MANY, search):
            return True
        self._give_up(passed)
        return False

    def close(self) -> None:
        """Ends what was started for it."""
        for passed in self._passes:
            passed.close()
        self._passes.clear()
