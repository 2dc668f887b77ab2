"""The binary format, written: numbers, sections, and instructions that are counted as the shim counts turns."""
from __future__ import annotations

from feulgama.wasm import opcodes as op


def unsigned(number: int) -> bytes:
    """A number in LEB128."""
    found = bytearray()
    while number >= 0x80:
        found.append(number & 0x7F | 0x80)
        number >>= 7
    return bytes([*found, number])


def signed(number: int) -> bytes:
    """A signed number in LEB128."""
    found = bytearray()
    while not -0x40 <= number < 0x40:
        found.append(number & 0x7F | 0x80)
        number >>= 7
    return bytes([*found, number & 0x7F])


def sized(data: bytes) -> bytes:
    """Bytes after their number."""
    return unsigned(len(data)) + data


def vector(items: list[bytes]) -> bytes:
    """Items after their number."""
    return unsigned(len(items)) + b"".join(items)


class Code:
    """The instructions of a body. `count` is how many there are, which is the place of the next one, and the turns that
    they take where no block is left out."""

    def __init__(self) -> None:
        self.data, self.count = b"", 0

    def add(self, *instructions: bytes) -> Code:
        """Adds instructions."""
        self.data += b"".join(instructions)
        self.count += len(instructions)
        return self

    def otherwise(self) -> Code:
        """Begins the second arm of a block."""
        self.data += bytes([op.ELSE])
        return self

    def end(self) -> Code:
        """Ends a block."""
        self.data += bytes([op.END])
        return self

    def body(self, locals_: int = 0) -> bytes:
        """The body of a function, with so many locals of type i32."""
        declared = vector([unsigned(locals_) + bytes([op.I32])] if locals_ else [])
        return sized(declared + self.data + bytes([op.END]))


def get(index: int) -> bytes:
    return b"\x20" + unsigned(index)


def set_local(index: int) -> bytes:
    return b"\x21" + unsigned(index)


def tee(index: int) -> bytes:
    return b"\x22" + unsigned(index)


def get_global(index: int) -> bytes:
    return b"\x23" + unsigned(index)


def set_global(index: int) -> bytes:
    return b"\x24" + unsigned(index)


def i32(number: int) -> bytes:
    """A constant, taken without what is above its 32 bits."""
    return bytes([op.I32_CONST]) + signed((number + 2**31) % 2**32 - 2**31)


def i64(number: int) -> bytes:
    return bytes([op.I64_CONST]) + signed(number)


def call(index: int) -> bytes:
    return bytes([op.CALL]) + unsigned(index)


IF = bytes([op.IF, 0x40])
DROP = b"\x1a"
I32_EQZ, I32_LT_U, I32_ADD, I32_AND, I32_OR = b"\x45", b"\x49", b"\x6a", b"\x71", b"\x72"
I64_NE, I64_GT_S, I64_ADD, I64_SUB = b"\x52", b"\x55", b"\x7c", b"\x7d"
LOADS = {1: b"\x31\0", 2: b"\x33\0", 4: b"\x35\0", 8: b"\x29\0"}  # into an i64, without a sign


def load(size: int) -> bytes:
    """A load of 1, 2, 4 or 8 bytes, at any alignment."""
    return LOADS[size] + unsigned(0)
