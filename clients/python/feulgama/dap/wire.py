"""Messages of the Debug Adapter Protocol on two streams: a head with their length, and JSON."""
from __future__ import annotations

import contextlib
import json
import threading
from collections.abc import Iterator, Mapping
from typing import IO, Any

from feulgama.errors import FeulgamaError

Message = dict[str, Any]
MOST_DIGITS = 8  # of the length of a message


class BadMessageError(FeulgamaError):
    """Bytes that are no message of the protocol."""


def read_message(stream: IO[bytes]) -> Message | None:
    """The next message; None at the end of the stream. Raises BadMessageError over what is none."""
    length, is_begun = None, False
    while True:
        line = stream.readline()
        if not line and not is_begun:
            return None
        if line in (b"\r\n", b"\n"):
            break
        name, colon, value = line.partition(b":")
        if not colon:
            raise BadMessageError(f"no head of a message: {line[:60]!r}")
        is_begun = True
        if name.strip().lower() == b"content-length" and value.strip().isdigit():
            if len(value.strip()) > MOST_DIGITS:
                raise BadMessageError(f"a message is too long: {line[:60]!r}")
            length = int(value)
    if length is None:
        raise BadMessageError("a message has no length")
    data = stream.read(length)
    if len(data) < length:
        return None
    try:
        found = json.loads(data)
    except (ValueError, RecursionError) as error:
        raise BadMessageError(f"a message is no JSON: {error}") from error
    if not isinstance(found, dict):
        raise BadMessageError("a message is no object")
    return found


class Writer:
    """Writes responses and events, each with its number. Several threads may use it."""

    def __init__(self, stream: IO[bytes]) -> None:
        self._stream, self._lock, self._count = stream, threading.Lock(), 0
        self._answered: object = None

    def has_answered(self, request: Message) -> bool:
        """Whether the last response was to this request, but for those to asides."""
        return self._answered is request

    @contextlib.contextmanager
    def aside(self) -> Iterator[None]:
        """Lets other requests be answered on the way of one."""
        before = self._answered
        yield
        self._answered = before

    def _write(self, message: Message) -> None:
        with self._lock:
            self._count += 1
            data = json.dumps({"seq": self._count, **message}).encode()
            self._stream.write(b"Content-Length: %d\r\n\r\n" % len(data) + data)
            self._stream.flush()

    def respond(self, request: Message, body: Mapping[str, Any] | None = None) -> None:
        """Answers a request that was done."""
        self._answered = request
        self._write({"type": "response", "request_seq": request.get("seq", 0), "success": True,
                     "command": request.get("command", ""), "body": dict(body or {})})

    def refuse(self, request: Message, why: str) -> None:
        """Answers a request that could not be done."""
        self._answered = request
        self._write({"type": "response", "request_seq": request.get("seq", 0), "success": False,
                     "command": request.get("command", ""), "message": why,
                     "body": {"error": {"id": 1, "format": "{why}", "variables": {"why": why}, "showUser": True}}})

    def event(self, name: str, body: Mapping[str, Any] | None = None) -> None:
        """Tells an event."""
        self._write({"type": "event", "event": name, "body": dict(body or {})})
