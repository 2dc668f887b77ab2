"""What an instruction has after its opcode, and why some instructions are refused."""
from __future__ import annotations

from collections.abc import Iterable
from enum import IntEnum

from feulgama.lowering import floats
from feulgama.wasm import opcodes as op

SELECT_TYPED, PREFIX = 0x1C, 0xFC
MEMORY_INIT, DATA_DROP, MEMORY_COPY, MEMORY_FILL = 8, 9, 10, 11


class Form(IntEnum):
    """What follows an opcode."""
    REFUSED = 0
    BARE = 1
    INDEX = 2
    ACCESS = 3
    CONSTANT = 4
    BLOCK = 5
    BR_TABLE = 6
    CALL = 7
    CALL_INDIRECT = 8
    MEMORY = 9
    ELSE = 10
    END = 11
    TYPED_SELECT = 12
    PREFIXED = 13
    FLOAT = 14
    FLOAT_ACCESS = 15
    FLOAT_CONSTANT = 16
    REINTERPRET = 17


def forms() -> list[Form]:
    """The form of each opcode."""
    found = [Form.REFUSED] * 256
    groups: tuple[tuple[Iterable[int], Form], ...] = (
        (op.BARE, Form.BARE), (op.INDEXED, Form.INDEX), (op.ACCESSES, Form.ACCESS),
        (op.BLOCKS, Form.BLOCK), ((op.I32_CONST, op.I64_CONST), Form.CONSTANT),
        ((op.MEMORY_SIZE, op.MEMORY_GROW), Form.MEMORY), (floats.OPERATIONS, Form.FLOAT),
        (floats.ACCESSES, Form.FLOAT_ACCESS), (floats.CONSTANTS, Form.FLOAT_CONSTANT), (floats.REINTERPRETS, Form.REINTERPRET))
    for codes, form in groups:
        for code in codes:
            found[code] = form
    for code, form in ((op.BR_TABLE, Form.BR_TABLE), (op.CALL, Form.CALL), (op.CALL_INDIRECT, Form.CALL_INDIRECT),
                       (op.ELSE, Form.ELSE), (op.END, Form.END), (SELECT_TYPED, Form.TYPED_SELECT), (PREFIX, Form.PREFIXED)):
        found[code] = form
    return found


FORMS = forms()

OTHERS: dict[int, str] = {
    **dict.fromkeys((0x06, 0x07, 0x08, 0x09, 0x0A, 0x18, 0x19, 0x1F), "exceptions"),
    **dict.fromkeys((0x12, 0x13, 0x15), "tail calls"),
    **dict.fromkeys((0x14, 0x25, 0x26, 0xD0, 0xD1, 0xD2, 0xD3, 0xD4, 0xD5, 0xD6), "references"),
    0xFB: "garbage collection", 0xFD: "SIMD", 0xFE: "threads",
}
TYPES: dict[int, str] = {0x7B: "v128: SIMD", 0x70: "funcref: references", 0x6F: "externref: references"}
NOT_LOWERED = "are not lowered"


def reason(opcode: int) -> str:
    """Why an instruction is refused."""
    if opcode in OTHERS:
        return f"byte {opcode:#04x}: instructions for {OTHERS[opcode]} {NOT_LOWERED}"
    return f"there is no instruction with the byte {opcode:#04x}"


def reason_of_prefixed(number: int) -> str:
    """Why an instruction is refused that begins with 0xfc."""
    if number < 18:
        return f"bytes 0xfc {number:#04x}: instructions on tables {NOT_LOWERED}"
    return f"there is no instruction with the bytes 0xfc {number:#04x}"


def reason_of_type(kind: int) -> str:
    """Why a type is refused."""
    return f"{TYPES[kind]} {NOT_LOWERED}" if kind in TYPES else f"{kind:#04x} is no value type that can be lowered"
