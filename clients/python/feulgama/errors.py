"""What goes wrong: a shim that ended, a reply that is none, and the refusals of docs/PROTOCOL.md."""
from __future__ import annotations

from collections.abc import Callable, Mapping
from typing import ClassVar

from feulgama.model import Ran

Reason = Callable[[], str | None]


def no_reason() -> str | None:
    """The reason of a refusal for which none is known."""
    return None


class FeulgamaError(Exception):
    """Whatever this package raises."""


class NoShimError(FeulgamaError):
    """The program of the shim is not there, or could not be started."""


class ShimEndedError(FeulgamaError):
    """The shim ended, or its pipes are closed. `status` is its exit status, negative for a signal, or None if it
    is not known; `said` is what it wrote to standard error. The last request may have been made or not."""

    def __init__(self, why: str, status: int | None = None, said: str = "") -> None:
        told = "" if status is None else f", status {status}"
        super().__init__(f"{why}{told}{': ' + said if said else ''}")
        self.status = status
        self.said = said


class OldShimError(ShimEndedError):
    """The program of the shim is too old for this package: its `serve` has no option `--caller`."""


class TimedOutError(FeulgamaError, TimeoutError):
    """A task has neither ended nor paused in the time that was given. Of a `run` the task is killed, and `ran` has what it
    did before; of a `wait` it goes on, and `ran` is None."""

    def __init__(self, why: str, ran: Ran | None = None) -> None:
        super().__init__(why)
        self.ran = ran


class InterferenceError(FeulgamaError):
    """A task that `run` made has not ended when it was waited for: another user of the shim has paused it."""


class BadReplyError(FeulgamaError):
    """A line of the shim is no reply of the protocol. `line` has its first bytes. The shim is ended then."""

    def __init__(self, line: bytes) -> None:
        super().__init__(f"no reply of the protocol: {line[:200]!r}")
        self.line = line[:200]


class RefusalError(FeulgamaError):
    """A request was refused, and changed nothing. `number` and `name` are those of docs/PROTOCOL.md, `op` the
    request's. `why` is the shim's reason in words, which the message has too; None if the shim gave none in time. A
    number that this package does not know comes as a plain RefusalError."""

    NUMBER: ClassVar[int] = 0

    def __init__(self, op: str, reply: Mapping[str, object], reason: Reason = no_reason) -> None:
        number, name = reply.get("number"), reply.get("error")
        super().__init__(f"{op} is refused: {number} {name}{self.where(reply)}")
        self.op = op
        self.number = number if isinstance(number, int) else 0
        self.name = str(name)
        self.reply = dict(reply)
        self._reason = reason

    @property
    def why(self) -> str | None:
        """The shim's reason. It comes after the reply, so whoever asks first may wait for it for a moment."""
        found = self._reason()
        self._reason = lambda: found
        return found

    def explained(self, why: str | None) -> RefusalError:
        """This refusal, whose reason is known now."""
        self._reason = lambda: why
        return self

    def __str__(self) -> str:
        return f"{self.args[0]}: {self.why}" if self.why else str(self.args[0])

    @staticmethod
    def where(_reply: Mapping[str, object]) -> str:
        """The place of a fault as words, for the message."""
        return ""


class BadRequestError(RefusalError):
    """The line is no request."""
    NUMBER = 1


class BadIdError(RefusalError):
    """An id or a digest is malformed."""
    NUMBER = 2


class ExistsError(RefusalError):
    """That task, content, lease, member or breakpoint is there."""
    NUMBER = 3


class NotFoundError(RefusalError):
    """There is no such task, lease or breakpoint."""
    NUMBER = 4


class NoContentError(RefusalError):
    """There is no content under the digest."""
    NUMBER = 5


class InUseError(RefusalError):
    """A lease or a task holds the content."""
    NUMBER = 6


class BadModuleError(RefusalError):
    """The bytes encode no module of the profile."""
    NUMBER = 7


class InvalidError(RefusalError):
    """The module is not valid. `func` and `place` say where, of a fault in a body; else they are None."""
    NUMBER = 8

    def __init__(self, op: str, reply: Mapping[str, object], reason: Reason = no_reason) -> None:
        super().__init__(op, reply, reason)
        self.func = optional_number(reply, "func")
        self.place = optional_number(reply, "place")

    @staticmethod
    def where(reply: Mapping[str, object]) -> str:
        return f" func {reply['func']} place {reply['place']}" if "place" in reply and "func" in reply else ""


class LimitError(RefusalError):
    """A limit on modules or on the task's memory is passed."""
    NUMBER = 9


class BadConfigError(RefusalError):
    """The config is malformed."""
    NUMBER = 10


class WrongStatusError(RefusalError):
    """The task's status does not allow the request."""
    NUMBER = 11


class BusyError(RefusalError):
    """The task is running or pausing, or a slice of it is out."""
    NUMBER = 12


class OutOfRangeError(RefusalError):
    """A signal, a stream, a count, a place or a range of memory that there is not."""
    NUMBER = 13


class TooManyError(RefusalError):
    """A table is full."""
    NUMBER = 14


class JournalFullError(RefusalError):
    """The board has answered as many requests as it may, and refuses each one from now on."""
    NUMBER = 15

    def __str__(self) -> str:
        return f"{self.args[0]}: the shim answers no more requests; start another, and make contents and tasks anew there"


class DigestConflictError(RefusalError):
    """Other bytes are stored under the same digest."""
    NUMBER = 16


class NoMemoryError(RefusalError):
    """An allocation failed."""
    NUMBER = 17


class BadTextError(RefusalError):
    """The text denotes no module. `line` and `column` count from 1."""
    NUMBER = 18

    def __init__(self, op: str, reply: Mapping[str, object], reason: Reason = no_reason) -> None:
        super().__init__(op, reply, reason)
        self.line = optional_number(reply, "line") or 0
        self.column = optional_number(reply, "column") or 0

    @staticmethod
    def where(reply: Mapping[str, object]) -> str:
        return f" line {reply.get('line')} column {reply.get('column')}"


class ClosedError(RefusalError):
    """The shim is being closed."""
    NUMBER = 19


class NoEntryError(RefusalError):
    """The module has no entry function, or no memory for its system calls."""
    NUMBER = 21


class BadImportError(RefusalError):
    """An import is no system call, or has another type."""
    NUMBER = 22


class SegmentOutOfBoundsError(RefusalError):
    """A segment is not inside its table or memory as it begins."""
    NUMBER = 23


REFUSALS: dict[int, type[RefusalError]] = {kind.NUMBER: kind for kind in RefusalError.__subclasses__()}

# The names that these classes had before.
NoShim, ShimEnded, BadReply, Refusal = NoShimError, ShimEndedError, BadReplyError, RefusalError
BadRequest, BadId, Exists, NotFound = BadRequestError, BadIdError, ExistsError, NotFoundError
NoContent, InUse, BadModule, Invalid = NoContentError, InUseError, BadModuleError, InvalidError
Limit, BadConfig, WrongStatus, Busy = LimitError, BadConfigError, WrongStatusError, BusyError
OutOfRange, TooMany, JournalFull, DigestConflict = OutOfRangeError, TooManyError, JournalFullError, DigestConflictError
NoMemory, BadText, NoEntry, BadImport = NoMemoryError, BadTextError, NoEntryError, BadImportError
SegmentOutOfBounds = SegmentOutOfBoundsError


def ended(why: str, status: int | None, said: str) -> ShimEndedError:
    """The exception for a shim that has ended."""
    if status == 2 and "'--caller'" in said:
        return OldShimError(f"the program of the shim is too old: its `serve` has no option --caller. {why}", status, said)
    return ShimEndedError(why, status, said)


def optional_number(reply: Mapping[str, object], key: str) -> int | None:
    """The number under a key; None if there is none."""
    value = reply.get(key)
    return value if isinstance(value, int) else None


def refusal_of(op: str, reply: Mapping[str, object], reason: Reason = no_reason) -> RefusalError:
    """The exception for a reply whose `ok` is false. `reason` answers why it was refused, or None."""
    number = optional_number(reply, "number")
    return REFUSALS.get(-1 if number is None else number, RefusalError)(op, reply, reason)
