"""Modules for the tests of the lowering, written byte by byte."""
from __future__ import annotations

from collections.abc import Sequence
from dataclasses import dataclass

from feulgama.lowering.words import code
from feulgama.wasm import writer as w
from feulgama.wasm.module import HEAD

WASI = "wasi_snapshot_preview1"
COPY, FILL = b"\xfc\x0a\0\0", b"\xfc\x0b\0"
VOID, WRITE = b"\x60\0\0", b"\x60\x04\x7f\x7f\x7f\x7f\x01\x7f"
TO_CLOSE, FOR_TIME = b"\x60\x01\x7f\x01\x7f", b"\x60\x03\x7f\x7e\x7f\x01\x7f"


def init(segment: int) -> bytes:
    return b"\xfc\x08" + w.unsigned(segment) + b"\0"


def drop(segment: int) -> bytes:
    return b"\xfc\x09" + w.unsigned(segment)


def text(name: str) -> bytes:
    return w.sized(name.encode())


def imported(name: str, kind: int, module: str = WASI) -> bytes:
    return text(module) + text(name) + b"\0" + w.unsigned(kind)


def active(at: int, data: bytes) -> bytes:
    """A data segment of version 1.0."""
    return b"\0" + w.i32(at) + b"\x0b" + w.sized(data)


@dataclass(slots=True)
class Written:
    """A module with a memory of one page, which exports its last function as `_start`. Type 0 is that of `_start`, and type
    1 that of `fd_write`. Each item is in the bytes of its section."""
    main: bytes
    imports: Sequence[bytes] = ()
    types: Sequence[bytes] = ()
    data: Sequence[bytes] = ()
    elements: Sequence[bytes] = ()
    globals_: Sequence[bytes] = ()
    functions: Sequence[tuple[int, bytes]] = ()
    table: bytes = b""
    locals_: bytes = b"\0"
    has_count: bool = False
    customs: bytes = b""
    exports: Sequence[bytes] = ()
    start: bytes = b""

    def bytes(self) -> bytes:
        """The module."""
        bodies = [*self.functions, (0, self.main)]
        start = w.unsigned(len(self.imports) + len(self.functions))
        parts = [(1, w.vector([VOID, WRITE, *self.types])), (2, w.vector([*self.imports])),
                 (3, w.vector([w.unsigned(kind) for kind, _ in bodies])), (4, self.table), (5, b"\x01\0\x01"),
                 (6, w.vector([*self.globals_])),
                 (7, w.vector([text("memory") + b"\x02\0", text("_start") + b"\0" + start, *self.exports])),
                 (8, self.start), (9, w.vector([*self.elements])), (12, w.unsigned(len(self.data)) if self.has_count else b""),
                 (10, w.vector([w.sized((self.locals_ if body is self.main else b"\0") + body + b"\x0b")
                                for _, body in bodies])),
                 (11, w.vector([*self.data]))]
        return HEAD + b"".join(bytes([number]) + w.sized(part) for number, part in parts
                               if part not in (b"", b"\0")) + self.customs


def show(begin: int, size: int, writer: int = 0) -> bytes:
    """Writes bytes of memory to standard output by a function. The last 32 bytes of the page are the call's."""
    return code(f"i32.const 65504 i32.const {begin} i32.store i32.const 65508 i32.const {size} i32.store "
                f"i32.const 1 i32.const 65504 i32.const 1 i32.const 65512 call {writer} drop")


def operands(*numbers: int) -> bytes:
    return b"".join(map(w.i32, numbers))


def store_result(at: int) -> bytes:
    """Stores the operand as a byte."""
    return code(f"global.set 0 i32.const {at} global.get 0 i32.store8")


RESULT = b"\x7f\x01" + w.i32(0) + b"\x0b"  # the global for store_result
WRITER = imported("fd_write", 1)


def rich() -> bytes:
    """A module that has something of all that is replaced, and runs to its end. Function 1 is `fd_write`; the table has 0, the
    call that is replaced, 1 and a function of the module's own."""
    names = b"\x01" + w.sized(w.vector([w.unsigned(at) + text(name) for at, name in enumerate(("close", "write", "own"))]))
    closing = b"".join(w.i32(fd) + w.i32(0) + b"\x11\x02\x80\0" + store_result(at) for at, fd in enumerate((1, 9)))
    calls = w.i32(2) + b"\x10\0" + store_result(2) + w.i32(2) + b"\x11\x03\0" + store_result(3) + operands(7, 8, 0)
    ranges = operands(4, 2, 0) + init(1) + drop(1) + operands(7, 65, 3) + FILL + operands(20, 0, 8) + COPY
    main = closing + calls + b"\x1c\x01\x7f" + store_result(4) + ranges + show(0, 30, 1)
    elements = [b"\x04" + w.i32(0) + b"\x0b\x01\xd2\0\x0b", b"\x02\0" + w.i32(1) + b"\x0b\0\x02\x01\x02", b"\x03\0\x01\x02"]
    return Written(main, [imported("fd_close", 2), WRITER], [TO_CLOSE, b"\x60\0\x01\x7f"], [active(0, b""), b"\x01\x03abc"],
                   elements, [RESULT, b"\x7f\0" + operands(2, 3) + b"\x6a\x0b"], [(3, w.i32(77))], b"\x01\x70\0\x03",
                   has_count=True, customs=b"\0" + w.sized(text("name") + names),
                   exports=[text("close") + b"\0\0", text("own") + b"\0\x02"]).bytes()


# What it writes: the answers of the calls, the function's number, the chosen operand, the bytes that were filled in.
RICH_SAYS = bytes((0, 8, 0, 77, 8, 0, 0)) + b"AAA" + bytes(10) + bytes((0, 8, 0, 77, 8, 0, 0)) + b"A" + bytes(2)


def xorshift(state: int, count: int) -> bytes:
    """Marsaglia's xorshift with the shifts 13, 7 and 17: bits 32 to 39 of each number."""
    found = bytearray()
    for _ in range(count):
        state ^= state << 13 & 2**64 - 1
        state ^= state >> 7
        state ^= state << 17 & 2**64 - 1
        found.append(state >> 32 & 255)
    return bytes(found)
