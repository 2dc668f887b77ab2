"""Modules in the binary format, written out part by part, each number in its shortest form."""
from __future__ import annotations

import hashlib
from collections.abc import Iterable, Sequence

I32, I64 = 0x7F, 0x7E
NOP, UNREACHABLE, END, DROP = b"\x01", b"\x00", b"\x0b", b"\x1a"
WASI = b"wasi_snapshot_preview1"
# The imports that programs here use: the name, the parameters and the results.
EXIT = (b"proc_exit", (I32,), ())
WRITE = (b"fd_write", (I32,) * 4, (I32,))
YIELD = (b"sched_yield", (), (I32,))
Import = tuple[bytes, tuple[int, ...], tuple[int, ...]]


def leb(number: int) -> bytes:
    """An unsigned number (5.2.2)."""
    groups = [number & 0x7F]
    while number := number >> 7:
        groups.append(number & 0x7F)
    return bytes(group | 0x80 for group in groups[:-1]) + bytes(groups[-1:])


def signed(number: int) -> bytes:
    """A signed number (5.2.2)."""
    groups = []
    while not -64 <= number < 64:
        groups.append(number & 0x7F | 0x80)
        number >>= 7
    return bytes([*groups, number & 0x7F])


def vector(items: Sequence[bytes]) -> bytes:
    return leb(len(items)) + b"".join(items)


def sized(part: bytes) -> bytes:
    return leb(len(part)) + part


def func_type(params: Sequence[int], results: Sequence[int]) -> bytes:
    return b"\x60" + sized(bytes(params)) + sized(bytes(results))


def imported(name: bytes, type_index: int, module: bytes = WASI) -> bytes:
    return sized(module) + sized(name) + b"\0" + leb(type_index)


def exported(name: bytes, kind: int, index: int) -> bytes:
    return sized(name) + bytes([kind]) + leb(index)


def limits(least: int, most: int | None = None) -> bytes:
    return b"\0" + leb(least) if most is None else b"\1" + leb(least) + leb(most)


def code(body: bytes, runs: Sequence[tuple[int, int]] = ()) -> bytes:
    """A function's locals, in runs of a count and a type, and its instructions without the last `end`."""
    return sized(vector([leb(count) + bytes([kind]) for count, kind in runs]) + body + END)


def i32(number: int) -> bytes:
    return b"\x41" + signed(number)


def i64(number: int) -> bytes:
    return b"\x42" + signed(number)


def call(index: int) -> bytes:
    return b"\x10" + leb(index)


def block(body: bytes, kind: bytes = b"\x40", opcode: int = 0x02) -> bytes:
    return bytes([opcode]) + kind + body + END


def module(sections: dict[int, bytes | None]) -> bytes:
    """The sections by their number; one that is None is missing."""
    found = b"".join(bytes([number]) + sized(part) for number, part in sorted(sections.items()) if part is not None)
    return b"\0asm\1\0\0\0" + found


def program(body: bytes, imports: Sequence[Import] = (), runs: Sequence[tuple[int, int]] = (),
            types: Sequence[bytes] = (), functions: Sequence[tuple[int, bytes]] = (), memory: bytes | None = None,
            table: bytes | None = None, more: dict[int, bytes] | None = None) -> bytes:
    """A module whose entry has this body. Types and functions of its own come after those of the entry: of t types that
    are given the first has the index 1, and of functions (type and code) the first has the index after the entry."""
    host = [func_type(params, results) for _, params, results in imports]
    first = 1 + len(types)
    exports = [exported(b"_start", 0, len(imports))] + ([exported(b"memory", 2, 0)] if memory is not None else [])
    return module({
        1: vector([func_type((), ()), *types, *host]),
        2: vector([imported(name, first + at) for at, (name, _, _) in enumerate(imports)]) if imports else None,
        3: vector([b"\0", *(leb(index) for index, _ in functions)]),
        4: None if table is None else vector([b"\x70" + table]),
        5: None if memory is None else vector([memory]),
        7: vector(exports),
        10: vector([code(body, runs), *(part for _, part in functions)]),
        **(more or {}),
    })


def digest_of(data: bytes) -> str:
    return "sha256:" + hashlib.sha256(data).hexdigest()


def repeated(unit: bytes, room: int) -> bytes:
    """As many copies of a unit as there is room for."""
    return unit * (room // len(unit))


def joined(parts: Iterable[bytes]) -> bytes:
    return b"".join(parts)
