"""Modules with floats for the tests of the lowering, written byte by byte, and what IEEE 754 says of operations."""
from __future__ import annotations

import math
import struct
from collections.abc import Callable, Sequence

from feulgama.wasm import writer as w
from tests import written_modules as m
from tests.written_modules import Written

# From 0x5b on, from 0x8b on and behind 0xfc, as the standard lists them.
RELATION_WORDS = "f32.eq f32.ne f32.lt f32.gt f32.le f32.ge f64.eq f64.ne f64.lt f64.gt f64.le f64.ge"
OPERATION_WORDS = """
f32.abs f32.neg f32.ceil f32.floor f32.trunc f32.nearest f32.sqrt f32.add f32.sub f32.mul f32.div f32.min f32.max f32.copysign
f64.abs f64.neg f64.ceil f64.floor f64.trunc f64.nearest f64.sqrt f64.add f64.sub f64.mul f64.div f64.min f64.max f64.copysign
i32.wrap_i64 i32.trunc_f32_s i32.trunc_f32_u i32.trunc_f64_s i32.trunc_f64_u i64.extend_i32_s i64.extend_i32_u
i64.trunc_f32_s i64.trunc_f32_u i64.trunc_f64_s i64.trunc_f64_u
f32.convert_i32_s f32.convert_i32_u f32.convert_i64_s f32.convert_i64_u f32.demote_f64
f64.convert_i32_s f64.convert_i32_u f64.convert_i64_s f64.convert_i64_u f64.promote_f32"""
SATURATION_WORDS = """
i32.trunc_sat_f32_s i32.trunc_sat_f32_u i32.trunc_sat_f64_s i32.trunc_sat_f64_u
i64.trunc_sat_f32_s i64.trunc_sat_f32_u i64.trunc_sat_f64_s i64.trunc_sat_f64_u"""
OPCODES = {word: first + at for first, words in ((0x5B, RELATION_WORDS), (0x8B, OPERATION_WORDS))
           for at, word in enumerate(words.split())}
SATURATIONS = {word: number for number, word in enumerate(SATURATION_WORDS.split())}
SIZES = {"f32": 4, "f64": 8, "i32": 4, "i64": 8}
FORMS = {"f32": "<f", "f64": "<d"}
STORES = {"f32": b"\x38\0\0", "f64": b"\x39\0\0", "i32": b"\x36\0\0", "i64": b"\x37\0\0"}
F32_F64, I32_I64 = b"\x60\x01\x7d\x01\x7c", b"\x60\x01\x7f\x01\x7e"
CANONICAL = {"f32": 0x7FC00000, "f64": 0x7FF8000000000000}


def bits_of(kind: str, number: float) -> int:
    """The encoding of a number, which is rounded to the format; beyond it is infinity."""
    try:
        return int.from_bytes(struct.pack(FORMS[kind], number), "little")
    except OverflowError:
        return bits_of(kind, math.copysign(math.inf, number))


def number_of(kind: str, bits: int) -> float:
    """The number of an encoding."""
    found: float = struct.unpack(FORMS[kind], bits.to_bytes(SIZES[kind], "little"))[0]
    return found


def constant(kind: str, bits: int) -> bytes:
    """A constant of these bits; of an integer type they are its number."""
    if kind in FORMS:
        return (b"\x43" if kind == "f32" else b"\x44") + bits.to_bytes(SIZES[kind], "little")
    return w.i32(bits) if kind == "i32" else w.i64((bits + 2**63) % 2**64 - 2**63)


def operator(word: str) -> bytes:
    """An instruction on floats."""
    return b"\xfc" + w.unsigned(SATURATIONS[word]) if word in SATURATIONS else bytes([OPCODES[word]])


def result_of(word: str) -> str:
    """The type of the result."""
    kind, _, name = word.partition(".")
    return "i32" if name in RELATIONS else kind


def operand_of(word: str) -> str:
    """The type of the operands."""
    kind, _, name = word.partition(".")
    return next((part for part in reversed(name.split("_")) if part in SIZES), kind)


def asking(word: str, operands: Sequence[Sequence[int]]) -> bytes:
    """A module that writes the result of an operation for each of these operands, in bits."""
    size, main = SIZES[result_of(word)], b""
    for number, given in enumerate(operands):
        main += w.i32(number * size) + b"".join(constant(operand_of(word), bits) for bits in given)
        main += operator(word) + STORES[result_of(word)]
    return Written(main + m.show(0, len(operands) * size), [m.WRITER]).bytes()


def divided(a: float, b: float) -> float:
    """The quotient, of zeros too."""
    if b != 0:
        return a / b
    return math.nan if a == 0 or math.isnan(a) else math.copysign(math.inf, math.copysign(1, a) * math.copysign(1, b))


def least(a: float, b: float) -> float:
    """The smaller one, where -0 is less than +0."""
    if math.isnan(a) or math.isnan(b):
        return math.nan
    return min(a, b, key=lambda one: (one, math.copysign(1, one)))


def root(a: float) -> float:
    return math.sqrt(a) if a >= 0 else a if a == 0 else math.nan


def whole(rounded: Callable[[float], int]) -> Callable[[float], float]:
    """A rounding of Python, as one that gives a float with the sign of its operand."""
    return lambda a: math.copysign(rounded(a), a) if math.isfinite(a) else a


RELATIONS: dict[str, Callable[[float, float], bool]] = {
    "eq": lambda a, b: a == b, "ne": lambda a, b: a != b, "lt": lambda a, b: a < b, "gt": lambda a, b: a > b,
    "le": lambda a, b: a <= b, "ge": lambda a, b: a >= b}
BINARY: dict[str, Callable[[float, float], float]] = {
    "add": lambda a, b: a + b, "sub": lambda a, b: a - b, "mul": lambda a, b: a * b, "div": divided, "min": least,
    "max": lambda a, b: -least(-a, -b), "copysign": math.copysign}
UNARY: dict[str, Callable[[float], float]] = {
    "sqrt": root, "ceil": whole(math.ceil), "floor": whole(math.floor), "trunc": whole(math.trunc), "nearest": whole(round),
    "abs": abs, "neg": lambda a: -a}


def round_trip() -> bytes:
    """A module in which floats are wherever a type or a value can be: globals, locals, parameters, results, blocks, a select
    with a type, memory and the table, in which two functions have types that differ by floats alone. It runs to its end."""
    table = [b"\0" + w.i32(0) + b"\x0b\x03\x01\x02\x03"]
    functions = [(2, b"\x20\0\xbb"), (3, b"\x20\0\xad"), (4, b"\x20\0\x9f")]
    globals_ = [b"\x7c\x01" + constant("f64", bits_of("f64", 1.5)) + b"\x0b",
                b"\x7d\0" + constant("f32", 0x7FA00001) + b"\x0b", b"\x7d\0\x23\x01\x0b"]
    one = constant("f64", bits_of("f64", 0.1))
    main = b"\x44" + bytes(7) + b"\x40" + b"\x21\x02"  # local 2 is 2.0
    main += w.i32(0) + b"\x23\0\x20\x02\xa0" + STORES["f64"]
    main += w.i32(8) + b"\x02\x7c" + one + b"\x0b" + STORES["f64"]
    main += w.i32(16) + w.i32(1) + b"\x04\x7d\x23\x02\x05\x20\0\x0b" + STORES["f32"]
    main += w.i32(20) + b"\x20\x01" + constant("f32", 0x80000000) + w.i32(0) + b"\x1c\x01\x7d" + STORES["f32"]
    main += w.i32(24) + constant("f32", 0x3F000000) + w.i32(0) + b"\x11\x02\0" + STORES["f64"]
    main += w.i32(32) + w.i32(-1) + w.i32(1) + b"\x11\x03\0" + STORES["i64"]
    main += w.i32(40) + constant("f64", bits_of("f64", 2.25)) + b"\x10\x03" + STORES["f64"]
    main += w.i32(48) + w.i32(8) + b"\x2b\0\0\xbd" + STORES["i64"]
    main += w.i32(56) + one + b"\x9a" + STORES["f64"]
    return Written(main + m.show(0, 64), [m.WRITER], [F32_F64, I32_I64, b"\x60\x01\x7c\x01\x7c"], functions=functions,
                   globals_=globals_, table=b"\x01\x70\0\x03", elements=table, locals_=b"\x02\x02\x7d\x01\x7c").bytes()


# What it writes.
ROUND_TRIP_SAYS = b"".join((
    struct.pack("<dd", 3.5, 0.1), (0x7FA00001).to_bytes(4, "little"), (0x80000000).to_bytes(4, "little"),
    struct.pack("<dQddd", 0.5, 0xFFFFFFFF, 1.5, 0.1, -0.1)))


def through_table(functions: Sequence[tuple[int, int]], kind: int, at: int, types: Sequence[bytes] = (),
                  at_end: tuple[int, bytes] | None = None) -> bytes:
    """A module whose table has functions of the types 2 and 3, which give 7; the one at `at` is called as one of a type, and
    its result is written. `functions` has the type of each, and how often it is there; `types` are more types, and `at_end`
    is another function, by its type and its body, at the table's end."""
    bodies = [(own, w.i64(7) if own == 3 else constant("f64", bits_of("f64", 7))) for own, count in functions
              for _ in range(count)] + ([at_end] if at_end else [])
    elements = b"\0" + w.i32(0) + b"\x0b" + w.vector([w.unsigned(1 + number) for number in range(len(bodies))])
    operand = constant("f32", 0) if kind == 2 else w.i32(0)
    main = w.i32(0) + operand + w.i32(at) + b"\x11" + w.unsigned(kind) + b"\0" + (b"\xbd" if kind == 2 else b"")
    return Written(main + STORES["i64"] + m.show(0, 8), [m.WRITER], [F32_F64, I32_I64, *types], functions=bodies,
                   table=b"\x01\x70\0" + w.unsigned(len(bodies)), elements=[elements]).bytes()
