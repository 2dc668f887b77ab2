"""Bytes of the binary format, read from the front."""
from __future__ import annotations

from collections.abc import Callable
from typing import TypeVar

from feulgama.errors import FeulgamaError

T = TypeVar("T")
LONGEST = 70


class NotAModuleError(FeulgamaError):
    """The bytes are no module that a task can have."""


class Reader:
    """The bytes from `at` up to `end`. `at` moves on with what is read."""

    __slots__ = ("data", "at", "end")

    def __init__(self, data: bytes, at: int = 0, end: int | None = None) -> None:
        self.data, self.at, self.end = data, at, len(data) if end is None else end

    def is_at_end(self) -> bool:
        """Whether nothing is left."""
        return self.at >= self.end

    def take(self, count: int) -> bytes:
        """This many bytes."""
        if self.at + count > self.end:
            raise NotAModuleError("the bytes end too soon")
        self.at += count
        return self.data[self.at - count:self.at]

    def byte(self) -> int:
        """One byte."""
        return self.take(1)[0]

    def unsigned(self) -> int:
        """A number in LEB128."""
        value = shift = 0
        while True:
            byte = self.byte()
            value |= (byte & 0x7F) << shift
            shift += 7
            if byte < 0x80:
                return value
            if shift >= LONGEST:
                raise NotAModuleError("a number is too long")

    def signed(self) -> int:
        """A signed number in LEB128."""
        value = shift = 0
        while True:
            byte = self.byte()
            value |= (byte & 0x7F) << shift
            shift += 7
            if byte < 0x80:
                return value - (1 << shift) if byte & 0x40 else value
            if shift >= LONGEST:
                raise NotAModuleError("a number is too long")

    def name(self) -> str:
        """A text after its length."""
        return self.take(self.unsigned()).decode("utf-8", "replace")

    def vector(self, item: Callable[[], T]) -> list[T]:
        """As many items as the number in front says."""
        return [item() for _ in range(self.unsigned())]

    def part(self) -> Reader:
        """The bytes after their size, which are passed over."""
        size = self.unsigned()
        if self.at + size > self.end:
            raise NotAModuleError("a section ends too late")
        self.at += size
        return Reader(self.data, self.at - size, self.at)
