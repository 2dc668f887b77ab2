"""A debugger without a face: it moves a run to where a user wants it, by instructions, lines, calls and breakpoints."""
from __future__ import annotations

import re
from collections.abc import Callable
from dataclasses import dataclass

from feulgama.debug.c_types import CType
from feulgama.debug.c_variables import Found
from feulgama.debug.expressions import NoValueError, Scope, evaluate
from feulgama.debug.hunt import Search, at_any
from feulgama.debug.lines import SourceLine
from feulgama.debug.look import Look, Place
from feulgama.debug.symbols import Symbols
from feulgama.debug.timeline import LAST_TURN, Timeline, Why
from feulgama.debug.trail import after_store
from feulgama.debug.writes import InterruptedSearchError, Writes
from feulgama.model import Cause, Frame

FIRST_WINDOW = 1_000_000
BRACES = re.compile(r"\{([^{}]*)\}")


@dataclass(slots=True)
class Breakpoint:
    """A breakpoint of the user's: its number, the words that asked for it, and its places. It stops a run if `condition`
    is not 0, or there is none, and that for more than `ignore` times; `hits` counts them. With a text `log` it never
    stops: the text is told, with the values of expressions in braces. One that `is_temporary` stops once."""
    number: int
    words: str
    places: tuple[Place, ...]
    condition: str = ""
    ignore: int = 0
    log: str | None = None
    is_temporary: bool = False
    hits: int = 0

    def is_plain(self) -> bool:
        """Whether it stops each time, and nothing else comes of it."""
        return not self.condition and self.log is None


@dataclass(frozen=True, slots=True)
class Watchpoint:
    """Bytes of memory whose changes stop a run: its number, the words that asked for it, where they are, and the type
    that they are shown by."""
    number: int
    words: str
    address: int
    size: int
    kind: CType


@dataclass(frozen=True, slots=True)
class Change:
    """A write: the watchpoint that it is of, its instruction, the bytes before and after it, and how many turns are
    made after it."""
    watchpoint: Watchpoint
    place: Place | None
    before: bytes
    after: bytes
    turn: int


class Debugger:
    """A run of a module under a user's hand. Each method that moves it says why it stopped. A move forward stops before
    an instruction that traps, unless it began there or `stops_at_traps` is not set."""

    def __init__(self, timeline: Timeline, symbols: Symbols) -> None:
        self.timeline, self.symbols = timeline, symbols
        self.breakpoints: dict[int, Breakpoint] = {}
        self.watchpoints: dict[int, Watchpoint] = {}
        self.stops_at_traps = True
        self._changes: list[Change] = []
        self._told: list[str] = []
        self.returned: list[str] = []
        self._numbers = 0

    # Breakpoints.

    def add_breakpoint(self, words: str, places: list[Place]) -> Breakpoint:
        """Sets a breakpoint at places."""
        self._numbers += 1
        found = Breakpoint(self._numbers, words, tuple(places))
        self.breakpoints[found.number] = found
        return found

    def told(self) -> list[str]:
        """What breakpoints have told since this was asked last."""
        found, self._told = self._told, []
        return found

    def _holds(self, found: Breakpoint) -> bool:
        """Whether the condition of a breakpoint holds here; also if it has no value, which is told."""
        if not found.condition:
            return True
        try:
            return evaluate(found.condition, self.scope(0)).whole() != 0
        except NoValueError as error:
            self._told.append(f"breakpoint {found.number}: {found.condition}: {error}")
            return True

    def _stops(self) -> bool:
        """Whether a breakpoint at this turn stops the run. Its hits are counted, and what it logs is told."""
        stops = False
        for found in self.at_place():
            if not self._holds(found):
                continue
            found.hits += 1
            if found.hits <= found.ignore:
                continue
            if found.log is not None:
                self._told.append(BRACES.sub(self._value_in_log, found.log))
                continue
            stops = True
            if found.is_temporary:
                self.breakpoints.pop(found.number)
        return stops

    def _value_in_log(self, match: re.Match[str]) -> str:
        try:
            found = evaluate(match[1], self.scope(0))
        except NoValueError as error:
            return f"({error})"
        return str(found.number) if found.kind is None else found.kind.text(found.data, self.timeline.memory)

    def places(self) -> frozenset[Place]:
        """The places of all breakpoints."""
        return frozenset(place for found in self.breakpoints.values() for place in found.places)

    def at_place(self) -> list[Breakpoint]:
        """The breakpoints at this place, whether or not they stop a run."""
        place = self.timeline.look().place
        return [found for found in self.breakpoints.values() if place in found.places]

    def hit(self) -> list[Breakpoint]:
        """The breakpoints that stop a run here."""
        return [found for found in self.at_place() if found.log is None and self._holds(found)]

    def add_watchpoint(self, words: str, address: int, size: int, kind: CType) -> Watchpoint:
        """Sets a watchpoint. Raises NotWatchableError if the bytes cannot be watched."""
        self.timeline.writes(address, size, True)
        self._numbers += 1
        found = Watchpoint(self._numbers, words, address, size, kind)
        self.watchpoints[found.number] = found
        return found

    def changes(self) -> list[Change]:
        """The writes that the last move stopped at, before or after them."""
        return [found for found in self._changes if self.timeline.turn in (found.turn - 1, found.turn)]

    # Where it is.

    def frames(self) -> tuple[Frame, ...]:
        """The frames, the innermost first."""
        return self.timeline.inspection().frames

    def place_of(self, frame: Frame, is_innermost: bool) -> Place:
        """The instruction that a frame is at: its next one, or of a frame that has called the call itself."""
        if is_innermost and frame.next is not None:
            return Place(frame.func, frame.next)
        return self.symbols.call_of(frame)

    def variables(self, number: int, wanted: str | None = None) -> list[Found]:
        """The variables of C of the frame with a number from the innermost, and those of all functions beside it; after
        the end, where there is no frame, those of all functions of the module. If a name is wanted the others are left
        out."""
        frames = self.frames()
        if number >= len(frames):
            return self.globals(wanted)
        place = self.place_of(frames[number], number == 0)
        return self.symbols.variables(frames[number], place, self.timeline.memory, wanted)

    def globals(self, wanted: str | None = None) -> list[Found]:
        """The variables of all functions of the module."""
        return self.symbols.variables(None, None, self.timeline.memory, wanted)

    def scope(self, number: int) -> Scope:
        """What an expression may name in the frame with a number; without a frame only the turn and memory."""
        frames = self.frames()
        return Scope(frames[number] if number < len(frames) else None, self.symbols.names, self.timeline.turn,
                     self.timeline.memory, lambda name: self.variables(number, name), self.globals, self.symbols.type_named,
                     self.symbols.float_local)

    # Moving by instructions.

    def _before_trap(self, move: Callable[[], Why]) -> Why:
        """Moves; if the task has trapped on the way, goes back to where the instruction that trapped is next."""
        begin, why = self.timeline.turn, move()
        return why if begin >= self.timeline.turn - 1 else self.back_over_trap(why)

    def back_over_trap(self, why: Why) -> Why:
        """Goes back to where the instruction that trapped is next. If the task has not trapped it stays, for the reason that
        is given."""
        found = self.timeline.exit
        if not self.stops_at_traps or found is None or found.cause is not Cause.TRAP:
            return why
        return Why.TRAP if self.timeline.seek(self.timeline.turn - 1) is Why.FOUND else Why.INTERRUPTED

    def _forward(self, search: Search, limit: int | None = None, is_goal: Callable[[Look], bool] | None = None) -> Why:
        """Goes on to what is looked for; where that is a breakpoint and no goal, to one that stops the run."""
        return self._before_trap(lambda: self._to_stop(search, limit, is_goal))

    def _to_stop(self, search: Search, limit: int | None, is_goal: Callable[[Look], bool] | None = None) -> Why:
        while True:
            why = self.timeline.forward(search, limit)
            if why is not Why.FOUND or is_goal is not None and is_goal(self.timeline.look()):
                return why
            if not self.at_place() or self._stops():
                return why
            if self.timeline.interrupted.is_set():
                return Why.INTERRUPTED

    def go_on(self, limit: int | None = None) -> Why:
        """Runs to a breakpoint, after a write that is watched, or to the end, at most to this turn."""
        self._changes, begin = [], self.timeline.turn
        if self.watchpoints:
            try:
                return self._before_trap(lambda: self._watched(limit))
            except InterruptedSearchError:
                self.timeline.interrupted.clear()
                self.timeline.seek(begin)
                return Why.INTERRUPTED
        return self._forward(at_any(self.places()), limit)

    def _watched(self, limit: int | None) -> Why:
        """Goes on where there are watchpoints. The way to a breakpoint and that to a write are looked at in parts, each
        twice as long as the one before, so that neither goes much further than the other."""
        begin, window = self.timeline.turn, FIRST_WINDOW
        if not self.breakpoints and limit is None:
            found = self._nearest(lambda writes: writes.next(begin, self.timeline.interrupted), min)
            return self.timeline.forward(at_any(frozenset())) if found is None else self._stop_after(found)
        goal = LAST_TURN if limit is None else limit
        while True:
            why = self._to_stop(at_any(self.places()), min(begin + window, goal))
            turn = self.timeline.turn
            found = self._nearest(lambda writes: writes.next_up_to(begin, turn, self.timeline.interrupted), min)
            if found is not None:
                return self._stop_after(found)
            if why is not Why.LIMIT or turn >= goal:
                return why
            window *= 2

    def _nearest(self, turn_of: Callable[[Writes], int | None], best: Callable[[list[int]], int]) -> int | None:
        """The best of the turns of a write that the watchpoints have; None if they have none."""
        found = [turn_of(self.timeline.writes(one.address, one.size, True)) for one in self.watchpoints.values()]
        turns = [turn for turn in found if turn is not None]
        return best(turns) if turns else None

    def _stop_after(self, turn: int) -> Why:
        """Goes to where a write was made, and takes note of what it changed."""
        self._changes = [found for one in self.watchpoints.values()
                         if (found := self.change(one, turn)).before != found.after]
        return self.timeline.seek(turn)

    def change(self, watchpoint: Watchpoint, turn: int) -> Change:
        """What a turn writes to watched bytes. The run is shown before the turn then."""
        self.timeline.seek(turn - 1)
        before, look = self.timeline.memory(watchpoint.address, watchpoint.size), self.timeline.look()
        instruction = None if look.place is None else self.symbols.instruction(look.place)
        after = None if instruction is None else after_store(instruction, look, watchpoint.address, before)
        if after is None:
            self.timeline.seek(turn)
            after = self.timeline.memory(watchpoint.address, watchpoint.size)
            self.timeline.seek(turn - 1)
        return Change(watchpoint, look.place, before, after, turn)

    def go_back(self) -> Why:
        """Runs back to the last breakpoint, before the last write that is watched, or to the first turn."""
        self._changes, places, end = [], self.places(), self.timeline.turn
        written = self._nearest(lambda writes: writes.last(end, self.timeline.interrupted), max)
        why = self._back_to_stop(places) if places else Why.BEGIN
        if written is not None and why is not Why.INTERRUPTED and (why is Why.BEGIN or written - 1 >= self.timeline.turn):
            self._stop_after(written)
            return self.timeline.seek(written - 1)
        if not places:
            self.timeline.seek(0)
        return why

    def _back_to_stop(self, places: frozenset[Place]) -> Why:
        """Goes back to a breakpoint whose condition holds, or to the first turn. Hits are not counted on the way back."""
        while True:
            why = self.timeline.backward(at_any(places))
            if why is not Why.FOUND or self.hit():
                return why

    def last_write(self, words: str, address: int, size: int, kind: CType) -> Change | None:
        """Goes back to before the last write to some bytes, also of the value that they had; None if none has written
        them."""
        self._changes = []
        found = self.timeline.writes(address, size, False).last(self.timeline.turn, self.timeline.interrupted)
        return None if found is None else self.change(Watchpoint(0, words, address, size, kind), found)

    def step(self, count: int = 1) -> Why:
        """Makes turns, up to a breakpoint."""
        turn = self.timeline.turn + count
        if count == 1 or not self.breakpoints:
            return self._before_trap(lambda: self._to(turn))
        why = self.go_on(turn)
        return Why.FOUND if why is Why.LIMIT else why

    def step_back(self, count: int = 1) -> Why:
        """Takes turns back."""
        turn = max(0, self.timeline.turn - count)
        return Why.BEGIN if self._to(turn) is Why.FOUND and turn == 0 else Why.FOUND

    def _to(self, turn: int) -> Why:
        why = self.timeline.seek(turn)
        return Why.ENDED if self.timeline.exit is not None else why

    def next(self) -> Why:
        """Makes a turn, and if it calls a function runs to where that has returned."""
        look = self.timeline.look()
        if look.place is None:
            return Why.ENDED
        is_call = self.symbols.instruction(look.place).is_call
        why = self.step()
        if is_call and why is Why.FOUND and self.timeline.look().depth > look.depth:
            return self.return_to(look.depth)
        return why

    def finish(self, frame: int = 0) -> Why:
        """Runs to where a frame has returned, the innermost having the number 0. What it returned is in `returned`."""
        frames, depth = self.frames(), self.timeline.look().depth - frame - 1
        self.returned = []
        why = self.return_to(depth)
        after = self.frames()
        if why is Why.FOUND and len(after) == depth and depth > 0 and not self.hit():
            self.returned = self.symbols.returned(frames[frame].func, after[0], self.timeline.memory)
        return why

    def return_to(self, depth: int) -> Why:
        """Runs to where there are at most this many frames, or to a breakpoint."""
        frames, own = self.frames(), self.places()
        outer = [(Place(frame.func, frame.next), len(frames) - at) for at, frame in enumerate(frames)
                 if len(frames) - at <= depth and frame.next is not None]
        if not outer:
            return self.go_on()
        back, most = outer[0]

        def is_back(look: Look) -> bool:
            return look.place == back and look.depth <= most
        return self._forward(Search(lambda look: look.place in own or is_back(look), own | {back}), None, is_back)

    def until(self, places: list[Place]) -> Why:
        """Runs to one of these places, or to a breakpoint."""
        return self._forward(at_any(self.places() | set(places)), None, lambda look: look.place in places)

    # Moving by lines.

    def line(self) -> SourceLine | None:
        """The line of the next instruction."""
        place = self.timeline.look().place
        return None if place is None else self.symbols.line_at(place)

    def step_line(self, is_over: bool) -> Why:
        """Runs to the beginning of another line; over calls, or into those whose functions have lines. Without lines
        it makes one turn."""
        look = self.timeline.look()
        if look.place is None or self.line() is None:
            return self.next() if is_over else self.step()
        from_, depth = (look.place.func, self.line()), look.depth
        while True:
            search = Search(lambda look: self._has_left(look, from_, depth), each_turn=True)
            why = self._before_trap(lambda: self.timeline.forward(search))
            look = self.timeline.look()
            if why is not Why.FOUND or self.at_place() and self._stops():
                return why
            if look.depth > depth and (is_over or self.line() is None):
                why = self.return_to(depth)
                if why is not Why.FOUND or self.hit():
                    return why
                look = self.timeline.look()
            if self._is_elsewhere(look, from_, depth):
                return self._over_prologue(look) if look.depth > depth else Why.FOUND

    def _over_prologue(self, look: Look) -> Why:
        """From the begin of a function to where its parameters have their values."""
        after = self.symbols.after_prologue(look.place) if look.place is not None and look.place.place == 0 else None
        if after is None or after == look.place:
            return Why.FOUND

        def is_after(found: Look) -> bool:
            return found.place == after and found.depth == look.depth
        return self._forward(Search(lambda found: is_after(found) or found.place in self.places(),
                                    self.places() | {after}), None, is_after)

    def _has_left(self, look: Look, from_: tuple[int, SourceLine | None], depth: int) -> bool:
        """Whether a run has called a function, is at another line, or is at a breakpoint."""
        return look.depth > depth or look.place in self.places() or self._is_elsewhere(look, from_, depth)

    def _is_elsewhere(self, look: Look, from_: tuple[int, SourceLine | None], depth: int) -> bool:
        if look.place is None:
            return True
        line = self.symbols.line_at(look.place)
        return line is not None and (look.depth != depth or (look.place.func, line) != from_)

    def step_line_back(self) -> Why:
        """Goes back to where the line before this one began, over calls, in this function or in one that called it; of a
        line that has begun before, to its own beginning. Without lines it takes one turn back."""
        why = self.back_over()
        look = self.timeline.look()
        if why is not Why.FOUND or look.place is None or self.line() is None:
            return why
        here, depth = (look.place.func, self.line()), look.depth
        while True:
            turn = self.timeline.turn
            why = self.back_over()
            look = self.timeline.look()
            if why is Why.INTERRUPTED or why is Why.BEGIN and not self._is_elsewhere(look, here, depth):
                return why
            if self._is_elsewhere(look, here, depth):
                return self.timeline.seek(turn)

    def back_over(self) -> Why:
        """Takes a turn back; of a call that has returned all its turns, to where the call is next."""
        if self.timeline.interrupted.is_set():
            return Why.INTERRUPTED
        depth = self.timeline.look().depth
        why = self.step_back()
        frames = self.frames()
        if why is not Why.FOUND or depth == 0 or len(frames) <= depth:
            return why
        call = self.symbols.call_of(frames[len(frames) - depth])
        return self.timeline.backward(Search(lambda look: look.depth == depth, frozenset({call})))
