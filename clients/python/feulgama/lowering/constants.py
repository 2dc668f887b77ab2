"""Constant expressions: of globals, and of the offsets of segments."""
from __future__ import annotations

from collections.abc import Sequence
from dataclasses import dataclass

from feulgama.lowering import floats, forms
from feulgama.lowering.body import u32
from feulgama.lowering.errors import Refusal
from feulgama.wasm import opcodes as op
from feulgama.wasm import writer as w
from feulgama.wasm.reader import Reader

GLOBAL_GET = 0x23
# Addition, subtraction and multiplication: the type of each.
OPERATORS = {0x6A: op.I32, 0x6B: op.I32, 0x6C: op.I32, 0x7C: op.I64, 0x7D: op.I64, 0x7E: op.I64}
BITS = {op.I32: 32, op.I64: 64, floats.F32: 32, floats.F64: 64}


@dataclass(frozen=True, slots=True)
class Constant:
    """A number of a type; a float is the integer of its bits. `data` is the expression in the form of version 1.0, by
    integers. `replaced` says what else it had, None if it is as it was."""
    kind: int
    value: int
    data: bytes
    replaced: str | None


def signed_of(value: int, kind: int) -> int:
    """A number as a signed one of its type."""
    half = 1 << BITS[kind] - 1
    return (value + half) % (2 * half) - half


def constant(reader: Reader, kind: int, known: Sequence[Constant | None]) -> Constant:
    """The expression of a type. `known` has the globals before it, None for those that are variable."""
    begin, stack, count = reader.at, list[tuple[int, int]](), 0
    while (opcode := reader.byte()) != op.END:
        count += 1
        stack.append(step(reader, opcode, stack, known))
    if len(stack) != 1 or stack[0][0] != kind:
        raise Refusal(f"an expression does not give one {(op.TYPES | floats.TYPES)[kind]}")
    value, is_plain = signed_of(stack[0][1], kind), count == 1 and reader.data[begin] != GLOBAL_GET
    if is_plain and kind in op.TYPES:
        return Constant(kind, value, reader.data[begin:reader.at], None)
    replaced = f"{floats.TYPES[kind]}.const" if is_plain else "extended constant"
    word = op.I32_CONST if BITS[kind] == 32 else op.I64_CONST
    return Constant(kind, value, bytes([word]) + w.signed(value) + bytes([op.END]), replaced)


def step(reader: Reader, opcode: int, stack: list[tuple[int, int]], known: Sequence[Constant | None]) -> tuple[int, int]:
    """The type and the value that an instruction leaves. It takes its operands from the stack."""
    if opcode in (op.I32_CONST, op.I64_CONST):
        return op.I32 if opcode == op.I32_CONST else op.I64, reader.signed()
    if opcode in floats.CONSTANTS:
        kind, size, _ = floats.CONSTANTS[opcode]
        return kind, int.from_bytes(reader.take(size), "little", signed=True)
    if opcode == GLOBAL_GET:
        index = u32(reader)
        found = known[index] if index < len(known) else None
        if found is None:
            raise Refusal(f"an expression reads global {index}, which is no constant before it")
        return found.kind, found.value
    if opcode not in OPERATORS:
        raise Refusal(forms.reason(opcode) if forms.FORMS[opcode] == forms.Form.REFUSED
                      else f"byte {opcode:#04x} is no instruction of a constant")
    kind = OPERATORS[opcode]
    if len(stack) < 2 or any(other != kind for other, _ in stack[-2:]):
        raise Refusal("an expression finds other operands than it needs")
    (_, first), (_, second) = stack[-2:]
    del stack[-2:]
    value = {0: first + second, 1: first - second, 2: first * second}[(opcode - 0x6A) % 0x12]
    return kind, signed_of(value, kind)
