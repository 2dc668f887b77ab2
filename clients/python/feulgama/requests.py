"""Each request of docs/PROTOCOL.md: the line that asks it, and how its reply is read."""
from __future__ import annotations

import itertools
import json
from typing import TypeVar

from feulgama.config import Config
from feulgama.errors import InterferenceError
from feulgama.model import (Cause, Content, Exit, Frame, Inspection, Ran, Signal, State, Status, Stream, TaskStatus,
                            Value, ValueType)
from feulgama.operation import Operation, Reply
from feulgama.operation import Request as Request

JOURNAL = 16_384  # how many requests a shim answers
CHANGES = frozenset({"create", "start", "pause", "resume", "kill", "delete", "step"})  # what changes a task
IDS = itertools.count()
T = TypeVar("T")


def line_of(op: str, **keys: object) -> bytes:
    """The line of a request with these keys."""
    return json.dumps({"op": op, **keys}, separators=(",", ":")).encode() + b"\n"


def new_id() -> str:
    """An id that this function has not made before."""
    return f"py-{next(IDS)}"


# How replies are read.

def nothing(_reply: Reply) -> None:
    return None


def id_of(reply: Reply) -> str:
    return str(reply["id"])


def content(reply: Reply) -> Content:
    return Content(reply["digest"], reply["size"])


def task_status(reply: Reply) -> TaskStatus:
    return TaskStatus(reply["id"], Status(reply["status"]))


def state_of(reply: Reply) -> State:
    status = Status(reply["status"])
    if "cause" not in reply:
        return State(reply["id"], status, reply["n"])
    exit_ = Exit(Cause(reply["cause"]), reply["exit"], reply.get("trap"), reply.get("signal"))
    return State(reply["id"], status, reply["n"], exit_)


def removed(reply: Reply) -> tuple[str, ...]:
    return tuple(reply["removed"])


def bytes_of(reply: Reply) -> bytes:
    return bytes.fromhex(reply["hex"])


def value(text: str) -> Value:
    kind, _, number = text.partition(":")
    return Value(ValueType(kind), int(number))


def frame(shown: Reply) -> Frame:
    next_ = shown["next"]
    return Frame(shown["func"], tuple(shown["labels"]), tuple(map(value, shown["locals"])),
                 None if next_ == "end" else int(next_), tuple(map(value, shown["operands"])))


def ran_of(state: State, stdout: bytes, stderr: bytes) -> Ran:
    """What a task did that has ended. Raises InterferenceError of one that has not: another user of the shim paused it."""
    if state.exit is None:
        raise InterferenceError(f"the task {state.id} has not ended; it is {state.status}")
    return Ran(state.exit, stdout, stderr)


def inspection(reply: Reply) -> Inspection:
    return Inspection(reply["id"], reply["n"], tuple(map(frame, reply["frames"])))


def glance(wait: Request[T], task: str) -> Request[T | None]:
    """What a `wait` for a task would be answered now, asked by a `state`; None if it would sleep."""
    def read(reply: Reply) -> T | None:
        return None if reply["status"] in (Status.RUNNING, Status.PAUSING) else wait.read(reply)
    return Request(wait.op, line_of("state", id=task), read)


# The table of requests, in the order of the page. Each is also a method of Shim and of AsyncShim (feulgama/calls.py).


@Operation
def put(data: bytes) -> Request[Content]:
    """Stores bytes."""
    if isinstance(data, str):
        raise TypeError("a content is bytes; put_text takes the text of a module")
    return Request("put", line_of("put", hex=data.hex()), content)


@Operation
def put_text(text: str) -> Request[Content]:
    """Stores the module that a text denotes."""
    return Request("put_text", line_of("put_text", text=text), content)


@Operation
def remove(digest: str) -> Request[None]:
    """Removes a content."""
    return Request("remove", line_of("remove", digest=digest), nothing)


@Operation
def lease_create(lease: str | None = None) -> Request[str]:
    """Creates a lease, under a new id if none is given; its id."""
    return Request("lease_create", line_of("lease_create", id=lease or new_id()), id_of)


@Operation
def lease_add(lease: str, digest: str) -> Request[None]:
    """Adds a content to a lease."""
    return Request("lease_add", line_of("lease_add", id=lease, digest=digest), nothing)


@Operation
def lease_delete(lease: str) -> Request[None]:
    """Deletes a lease."""
    return Request("lease_delete", line_of("lease_delete", id=lease), nothing)


@Operation
def gc() -> Request[tuple[str, ...]]:
    """Removes the contents that nothing holds; their digests."""
    return Request("gc", line_of("gc"), removed)


@Operation
def create(config: Config | str, task: str | None = None) -> Request[TaskStatus]:
    """Creates a task, under a new id if none is given. A config that is a text is sent as it is."""
    text = config if isinstance(config, str) else config.text()
    return Request("create", line_of("create", id=task or new_id(), config=text), task_status)


@Operation
def start(task: str) -> Request[TaskStatus]:
    """Starts a task."""
    return Request("start", line_of("start", id=task), task_status)


@Operation
def pause(task: str) -> Request[TaskStatus]:
    """Pauses a task that is running."""
    return Request("pause", line_of("pause", id=task), task_status)


@Operation
def resume(task: str) -> Request[TaskStatus]:
    """Lets a task that is paused run on."""
    return Request("resume", line_of("resume", id=task), task_status)


@Operation
def kill(task: str, signal: int = Signal.KILL) -> Request[TaskStatus]:
    """Ends a task by a signal."""
    return Request("kill", line_of("kill", id=task, signal=int(signal)), task_status)


@Operation
def delete(task: str) -> Request[State]:
    """Removes a task that is stopped; its last state."""
    return Request("delete", line_of("delete", id=task), state_of)


@Operation
def state(task: str) -> Request[State]:
    """What a task is doing."""
    return Request("state", line_of("state", id=task), state_of)


@Operation
def wait(task: str) -> Request[State]:
    """The state of a task, once it is not running. There is no limit of time."""
    return Request("wait", line_of("wait", id=task), state_of)


@Operation
def output(task: str, stream: int = Stream.STDOUT) -> Request[bytes]:
    """What a task has written to a stream."""
    return Request("output", line_of("output", id=task, stream=int(stream)), bytes_of)


@Operation
def break_(task: str, func: int, place: int) -> Request[None]:
    """Sets a breakpoint."""
    return Request("break", line_of("break", id=task, func=func, place=place), nothing)


@Operation
def unbreak(task: str, func: int, place: int) -> Request[None]:
    """Takes a breakpoint away."""
    return Request("unbreak", line_of("unbreak", id=task, func=func, place=place), nothing)


@Operation
def step(task: str, count: int = 1) -> Request[State]:
    """Makes turns of a task that is paused; its state after them."""
    return Request("step", line_of("step", id=task, count=count), state_of)


@Operation
def inspect(task: str) -> Request[Inspection]:
    """The frames of a task."""
    return Request("inspect", line_of("inspect", id=task), inspection)


@Operation
def peek(task: str, address: int, length: int) -> Request[bytes]:
    """Bytes of a task's memory."""
    return Request("peek", line_of("peek", id=task, address=address, length=length), bytes_of)
