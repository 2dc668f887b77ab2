"""A run as the calls that it makes: for each frame its function, and the turns at which it begins and ends."""
from __future__ import annotations

from collections.abc import Callable, Sequence
from dataclasses import dataclass, field

from feulgama.debug.debugger import Debugger
from feulgama.debug.look import Look
from feulgama.debug.running import Interrupt, Watch
from feulgama.debug.timeline import size_of
from feulgama.debug.track import Track
from feulgama.model import Exit, Frame, Stream
from feulgama.requests import inspect
from feulgama.wasm import opcodes as op
from feulgama.wasm.module import Module

EXACT = 100_000  # so many turns are looked at one by one
SAMPLES = 1000
REPEATS = 256


@dataclass(slots=True)
class Call:
    """A frame: its function, how many frames are below it, and from which turn up to which one it is there."""
    func: int
    depth: int
    begin: int
    end: int


@dataclass(slots=True)
class Story:
    """What a run did: its calls, how many bytes memory had from which turn on, what it had written to its streams by which
    turn, and how it ended. It was looked at each `step` turns; at each one all of it is exact to the turn."""
    step: int
    turns: int = 0
    end: str = ""
    calls: list[Call] = field(default_factory=list)
    memory: list[tuple[int, int]] = field(default_factory=list)
    output: list[tuple[int, int, str]] = field(default_factory=list)


def told(debugger: Debugger, most: int, interrupted: Interrupt, progress: Callable[[int, int], None]) -> Story:
    """The story of a run, of at most so many turns. It is run three times: to know how far, for its calls, and for memory and
    streams. An interrupt ends one of these where it is, and is taken back then."""
    timeline = debugger.timeline
    debugger.stops_at_traps = False
    timeline.seek(most)
    interrupted.clear()
    turns = timeline.turn
    story = Story(1 if turns <= EXACT else max(1, turns // SAMPLES), turns)
    teller = Teller(story, debugger.symbols.module, timeline.new_track)
    while not teller.is_over() and not interrupted.is_set():
        progress(teller.go_on(interrupted), turns)
    interrupted.clear()
    read = teller.close(interrupted)
    story.end = end_of(timeline.exit, turns, story.turns, read)
    return story


def end_of(exit_: Exit | None, turns: int, shown: int, read: int) -> str:
    """How a run ended that was followed for some turns, and which of them are shown: of memory and streams those up to the
    turn `read`."""
    if exit_ is None:
        end = f"not ended; the first {shown} turns are shown"
    elif shown < turns:
        end = f"{exit_} after {turns} turns; the first {shown} turns are shown"
    else:
        end = str(exit_)
    return end if read == shown else f"{end}; memory and output are those of the first {read}"


class Teller:
    """Follows a task, and writes its story."""

    def __init__(self, story: Story, module: Module, new_track: Callable[[], Track]) -> None:
        self._story, self._module, self._new_track = story, module, new_track
        self._open: list[Call] = []
        self._keys: list[tuple[int, int | None]] = []
        self._told: list[int] = []
        self._writing = {index for index, (_, name, _) in enumerate(module.imports) if name == "fd_write"}
        self._track = new_track()
        self._before = self._track.look()
        self._look_at(self._before)

    def is_over(self) -> bool:
        """Whether the task has come to the last turn."""
        return self._track.exit is not None or self._track.turn >= self._story.turns

    def go_on(self, interrupted: Interrupt) -> int:
        """Goes on for some turns, as far as there are any; where it is then."""
        track, story, watch = self._track, self._story, Watch(interrupted)
        if story.step == 1:
            for look in track.looks(1, min(REPEATS, story.turns - track.turn), frozenset(), watch):
                self._look_at(look)
        else:
            track.advance(min(track.turn + story.step, story.turns), watch)
            self._told.append(track.turn)
            if track.exit is None:
                self._look_at(track.look())
        return track.turn

    def _is_told(self, look: Look) -> bool:
        """Whether the next instruction may write to a stream, or let memory grow."""
        instruction = self._module.instruction(*look.place) if look.place is not None else None
        if instruction is None:
            return False
        return instruction.opcode in (op.MEMORY_GROW, op.CALL_INDIRECT) or \
            instruction.opcode == op.CALL and int(instruction.text.split()[1]) in self._writing

    def _look_at(self, look: Look) -> None:
        """Takes note of where the task is after a turn."""
        is_other = look.place is not None and self._open and look.place.func != self._open[-1].func
        if self._story.step > 1 or look.depth != len(self._open) or is_other:
            self._follow(inspect("").result(look.line).frames[::-1], look.turn)
        if look.turn == 0 or self._story.step == 1 and self._is_told(self._before):
            self._told.append(look.turn)
        self._before = look

    def _follow(self, frames: Sequence[Frame], turn: int) -> None:
        """Ends the calls that are not there any more, and begins those that are new. One turn calls or returns, and not
        both, but for the last one of the start function, after which the entry is there. So a function that is where it
        was, and was called at the same place, is the same call, if each turn is looked at."""
        keys = [(frame.func, frames[depth - 1].next if depth else None) for depth, frame in enumerate(frames)]
        same = 0
        while same < min(len(keys), len(self._keys)) and self._keys[same] == keys[same]:
            same += 1
        for call in self._open[same:]:
            call.end = turn
        del self._open[same:]
        self._keys = keys
        for depth, (func, _) in enumerate(keys[same:], same):
            self._open.append(Call(func, depth, turn, turn))
            self._story.calls.append(self._open[-1])

    def close(self, interrupted: Interrupt) -> int:
        """The end of the story: what is open ends there. Memory and streams are read by another task, which goes from one
        turn that may have changed them to the next. Answers up to which turn: the last one, if nobody interrupts."""
        story, track = self._story, self._new_track()
        story.turns = self._track.turn
        for call in self._open:
            call.end = story.turns
        self._track.drop()
        sizes = {stream: 0 for stream in Stream}
        for turn in sorted({*self._told, story.turns}):
            track.advance(turn, Watch(interrupted))
            self._read(track, sizes)
            if track.turn < turn and track.exit is None:
                break
        read = track.turn
        track.drop()
        return read

    def _read(self, track: Track, sizes: dict[Stream, int]) -> None:
        """Takes note of memory and streams at the turn of a task, if these have more than so many bytes."""
        story, size = self._story, size_of(track)
        if not story.memory or story.memory[-1][1] != size:
            story.memory.append((track.turn, size))
        for stream, before in sizes.items():
            written = track.output(stream)
            if len(written) > before:
                story.output.append((track.turn, int(stream), written[before:].decode(errors="replace")))
                sizes[stream] = len(written)
