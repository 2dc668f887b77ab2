"""What a shim says on standard error: the reasons of its refusals, which `serve --explain` writes, and all else."""
from __future__ import annotations

import collections
import re
import threading
import time
from typing import IO, NamedTuple

WHY = re.compile(r"why: (?:(\S+) )?line (\d+), (\d+) \w+: (.*)")
OP = re.compile(r"[a-z_]+: ")
CHUNK, MOST_OTHER, MOST_REASONS = 1 << 16, 1 << 16, 16_384
PATIENCE = 2.0  # how many seconds a reason is waited for


class Line(NamedTuple):
    """A line that was sent: what the shim calls its caller, and its number there, from 1."""
    caller: str
    number: int


class Said:
    """The lines of a shim's standard error as they come. A reason is written before the reply that it is of, but may be
    read after it, so it is waited for; but no longer of a shim that has not given the first one in time. Several threads
    may use it."""

    def __init__(self) -> None:
        self._changed = threading.Condition()
        self._rest, self._other = b"", b""
        self._reasons: dict[Line, str] = {}
        self._last: collections.Counter[str] = collections.Counter()
        self._is_over = self._is_silent = False

    def listen(self, stream: IO[bytes]) -> None:
        """Reads a stream to its end, and closes it."""
        with stream:
            while data := stream.read(CHUNK):
                self.feed(data)
        self.end()

    def feed(self, data: bytes) -> None:
        """Takes note of more bytes."""
        *lines, self._rest = (self._rest + data).split(b"\n")
        with self._changed:
            for line in lines:
                self._note(line)
            self._changed.notify_all()

    def _note(self, text: bytes) -> None:
        match = WHY.fullmatch(text.decode(errors="replace"))
        if match is None:
            self._other = (self._other + text + b"\n")[-MOST_OTHER:]
            return
        line = Line(match[1] or "", int(match[2]))
        self._last[line.caller], self._is_silent = line.number, False
        self._reasons[line] = match[4][len(op[0]):] if (op := OP.match(match[4])) is not None else match[4]
        if len(self._reasons) > MOST_REASONS:
            del self._reasons[next(iter(self._reasons))]

    def end(self) -> None:
        """Takes note that nothing more comes."""
        with self._changed:
            self._is_over = True
            self._changed.notify_all()

    def is_known(self, line: Line) -> bool:
        """Whether the reason of the refusal that answered a line has come, or will not."""
        return self._last[line.caller] >= line.number or self._is_over or self._is_silent

    def give_up(self) -> None:
        """Takes note that a reason did not come in time."""
        self._is_silent = not self._reasons

    def why(self, line: Line) -> str | None:
        """The reason of the refusal that answered a line, once it is known; None if it does not come in time."""
        deadline = time.monotonic() + PATIENCE
        with self._changed:
            while not self.is_known(line):
                if not self._changed.wait(deadline - time.monotonic()) and time.monotonic() >= deadline:
                    self.give_up()
                    break
            return self._reasons.get(line)

    def known(self, line: Line) -> str | None:
        """The same, as far as it is known now."""
        with self._changed:
            return self._reasons.get(line)

    def other(self) -> str:
        """All else that was said, without the white space round it."""
        with self._changed:
            return (self._other + self._rest).decode(errors="replace").strip()
