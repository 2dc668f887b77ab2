"""Floats: their instructions and types, and the integers that take their place. A float is the integer of its bits."""
from __future__ import annotations

from feulgama.wasm import opcodes as op
from feulgama.wasm import writer as w
from feulgama.wasm.reader import Reader

F32, F64 = 0x7D, 0x7C
# The integer types that take the place of those of floats.
INTEGERS = {F32: op.I32, F64: op.I64}
TYPES = {F32: "f32", F64: "f64"}
RELATIONS = ("eq", "ne", "lt", "gt", "le", "ge")
OPERATORS = ("abs", "neg", "ceil", "floor", "trunc", "nearest", "sqrt", "add", "sub", "mul", "div", "min", "max", "copysign")
TRUNCATIONS = ("f32_s", "f32_u", "f64_s", "f64_u")
CONVERSIONS = ("convert_i32_s", "convert_i32_u", "convert_i64_s", "convert_i64_u")

# Loads and stores: their words, and the opcodes of those of integers.
ACCESSES: dict[int, tuple[str, int]] = {0x2A: ("f32.load", 0x28), 0x2B: ("f64.load", 0x29), 0x38: ("f32.store", 0x36),
                                        0x39: ("f64.store", 0x37)}
# Constants: the type, the number of bytes, and the opcode of those of integers.
CONSTANTS: dict[int, tuple[int, int, int]] = {0x43: (F32, 4, op.I32_CONST), 0x44: (F64, 8, op.I64_CONST)}
# What does nothing to the bits.
REINTERPRETS: dict[int, str] = {0xBC: "i32.reinterpret_f32", 0xBD: "i64.reinterpret_f64", 0xBE: "f32.reinterpret_i32",
                                0xBF: "f64.reinterpret_i64"}
# What a function of the library takes the place of; its name has `_` for the dot.
OPERATIONS: dict[int, str] = {
    **op.words(0x5B, "f32", RELATIONS), **op.words(0x61, "f64", RELATIONS),
    **op.words(0x8B, "f32", OPERATORS), **op.words(0x99, "f64", OPERATORS),
    **op.words(0xA8, "i32", tuple(f"trunc_{one}" for one in TRUNCATIONS)),
    **op.words(0xAE, "i64", tuple(f"trunc_{one}" for one in TRUNCATIONS)),
    **op.words(0xB2, "f32", (*CONVERSIONS, "demote_f64")), **op.words(0xB7, "f64", (*CONVERSIONS, "promote_f32")),
}
# The same of what follows 0xfc.
SATURATIONS: dict[int, str] = {**op.words(0, "i32", tuple(f"trunc_sat_{one}" for one in TRUNCATIONS)),
                               **op.words(4, "i64", tuple(f"trunc_sat_{one}" for one in TRUNCATIONS))}
NOP = b"\x01"


def helper_name(word: str) -> str:
    """The name in the library of the function for an instruction."""
    return word.replace(".", "_")


def without_floats(kinds: bytes) -> bytes:
    """Types, a byte each, with the integers that take the place of floats."""
    return bytes(INTEGERS.get(kind, kind) for kind in kinds)


def constant(reader: Reader, opcode: int) -> tuple[str, bytes]:
    """The word of a constant, and the same bits as one of integers."""
    kind, size, integers = CONSTANTS[opcode]
    return f"{TYPES[kind]}.const", bytes([integers]) + w.signed(int.from_bytes(reader.take(size), "little", signed=True))
