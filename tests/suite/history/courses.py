"""What a module does when it runs, by the second reading of the standards: how it ends, and what it has written
when."""
import json
import typing

from suite.reference import wasm
from suite.reference.board import Process
from suite.reference.execute import Machine

MOST_TURNS = 10**15
LOOKED_AT = 20_000  # turns of a module that are looked at
Snapshot = tuple[object, ...]


class Written(typing.NamedTuple):
    """From this turn on, up to that of the next one, a stream has this many bytes."""
    turn: int
    size: int


class Course:
    """What is known of a module under a process. `ends_at`: the turns with which it ends by itself. `goes_on`: after
    `looked_at` turns it was where it had been after `came_back_to`, so it never does. Where neither is known, it has
    not ended within `looked_at` turns."""

    def __init__(self, digest: str, process: Process | None = None, data: bytes | None = None) -> None:
        self.digest, self.process, self.data = digest, process, data
        self.ends_at: int | None = None
        self.end, self.goes_on, self.looked_at, self.came_back_to = "", False, -1, 0
        self.written: dict[int, list[Written]] = {1: [Written(0, 0)], 2: [Written(0, 0)]}
        self.bytes: dict[int, bytes] = {1: b"", 2: b""}
        self.is_known = data is not None
        if self.is_known:
            self.look()

    @property
    def last(self) -> int:
        """The most turns with which it has not ended."""
        return MOST_TURNS - 1 if self.ends_at is None else self.ends_at - 1

    def machine(self) -> typing.Any:
        assert self.process is not None and self.data is not None
        return Machine(wasm.Decoder(self.data).module(), self.process.cap, self.process.args, self.process.env)

    def look(self) -> None:
        """Runs the module until it ends, comes back to where it was, or has made all turns that are looked at."""
        machine, kept, keep_at = self.machine(), None, 1
        while machine.end is None and machine.turns < LOOKED_AT and not self.goes_on:
            machine.turn()
            self.note(machine)
            self.goes_on = kept is not None and machine.end is None and is_at(machine, kept)
            if machine.turns == keep_at and not self.goes_on:
                kept, self.came_back_to, keep_at = snapshot(machine), keep_at, 2 * keep_at
        self.looked_at = machine.turns
        self.bytes = {stream: bytes(machine.streams[stream]) for stream in (1, 2)}
        if machine.end is not None:
            self.ends_at, self.end = machine.turns, json.dumps(machine.end, sort_keys=True)
        self.is_known = self.goes_on or machine.end is not None

    def note(self, machine: typing.Any) -> None:
        for stream, written in self.written.items():
            if len(machine.streams[stream]) != written[-1].size:
                written.append(Written(machine.turns, len(machine.streams[stream])))

    def frames(self, turns: int) -> object:
        """The frames after a number of turns; None where they are not known."""
        if turns > self.looked_at and self.goes_on:
            turns = self.came_back_to + (turns - self.came_back_to) % (self.looked_at - self.came_back_to)
        if turns > self.looked_at:
            return None
        machine = self.machine()
        machine.run(turns)
        return machine.shown()

    def begins_at(self, breaks: frozenset[tuple[int, int]]) -> list[bool]:
        """Whether its first instruction is at a breakpoint; both, where that is not known."""
        if not breaks:
            return [False]
        return [False, True] if self.data is None else [bool(self.machine().is_at(breaks))]

    def has_place(self, func: int, place: int) -> list[bool]:
        """Whether there is an instruction at a place; both, where that is not known."""
        return [False, True] if self.data is None else [bool(self.machine().has_place(func, place))]


def snapshot(machine: typing.Any) -> Snapshot:
    """All that the next turns hang on, the memory last."""
    return (*frames_of(machine), bytes(machine.memory))


def frames_of(machine: typing.Any) -> Snapshot:
    frames = tuple((frame.func, id(frame.sequence), frame.at, tuple(frame.locals), tuple(frame.operands),
                    tuple(label.number for label in frame.labels)) for frame in machine.frames)
    sizes = tuple(len(machine.streams[stream]) for stream in (1, 2))
    return frames, tuple(machine.waiting), tuple(machine.globals), sizes


def is_at(machine: typing.Any, kept: Snapshot) -> bool:
    """Whether the machine is where it was."""
    if len(machine.frames) != len(typing.cast(tuple[object, ...], kept[0])):
        return False
    return frames_of(machine) == kept[:-1] and machine.memory == kept[-1]
