"""The values in replies: states of tasks, frames, contents."""
from __future__ import annotations

import enum
from dataclasses import dataclass
from typing import NamedTuple


class Status(enum.StrEnum):
    """What a task is doing."""
    CREATED = "created"
    RUNNING = "running"
    PAUSING = "pausing"
    PAUSED = "paused"
    STOPPED = "stopped"


class Cause(enum.StrEnum):
    """How a task ended."""
    RETURN = "return"
    EXIT = "exit"
    TRAP = "trap"
    KILL = "kill"


class Signal(enum.IntEnum):
    """What `kill` takes."""
    KILL = 9
    TERM = 15


class Stream(enum.IntEnum):
    """An output stream of a task."""
    STDOUT = 1
    STDERR = 2


class ValueType(enum.StrEnum):
    """The type of a local or an operand."""
    I32 = "i32"
    I64 = "i64"


@dataclass(frozen=True, slots=True)
class Exit:
    """How a task ended. `code` is the exit number. `trap` is the name of a trap, of a task that a trap ended;
    `signal` is that of a task that was killed."""
    cause: Cause
    code: int
    trap: str | None = None
    signal: int | None = None

    def __str__(self) -> str:
        if self.trap is not None:
            return f"trap {self.trap}, exit {self.code}"
        return f"{self.cause}, exit {self.code}"


@dataclass(frozen=True, slots=True)
class State:
    """What a task is doing after `turns` turns. `exit` says how it ended, if it has."""
    id: str
    status: Status
    turns: int
    exit: Exit | None = None


@dataclass(frozen=True, slots=True)
class TaskStatus:
    """A task and the status that a request has left it in."""
    id: str
    status: Status


@dataclass(frozen=True, slots=True)
class Content:
    """Bytes that are stored: their digest and their number."""
    digest: str
    size: int


class Value(NamedTuple):
    """A local or an operand: its type and the number, with its sign."""
    type: ValueType
    number: int

    def __str__(self) -> str:
        return f"{self.type.value}:{self.number}"

    def data(self) -> bytes:
        """The bytes that it has in memory."""
        return self.number.to_bytes(4 if self.type is ValueType.I32 else 8, "little", signed=True)


@dataclass(frozen=True, slots=True)
class Frame:
    """A call that has not returned. `labels` are the places of the blocks that are open, the innermost first;
    `locals` have the parameters first; `next` is the place of its next instruction, or None if it returns then;
    `operands` are the oldest first."""
    func: int
    labels: tuple[int, ...]
    locals: tuple[Value, ...]
    next: int | None
    operands: tuple[Value, ...]


@dataclass(frozen=True, slots=True)
class Inspection:
    """Where a task is after `turns` turns: its frames, the innermost first; none once it has ended."""
    id: str
    turns: int
    frames: tuple[Frame, ...]


class Ran(NamedTuple):
    """What a module did that was run to its end."""
    exit: Exit
    stdout: bytes
    stderr: bytes
