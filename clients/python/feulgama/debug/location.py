"""Where a variable is: the expressions of DWARF 4 and 5, evaluated over a frame and memory (DWARF 5, section 2.5 and 2.6).

WebAssembly has no registers. `DW_OP_WASM_location` names a local, an operand or a global in their place; what globals
have is in no reply of the shim.
"""
from __future__ import annotations

from collections.abc import Callable
from dataclasses import dataclass

from feulgama.errors import FeulgamaError
from feulgama.model import Frame, ValueType
from feulgama.wasm.reader import NotAModuleError, Reader

Memory = Callable[[int, int], bytes]
OPTIMIZED_OUT = "optimized out"
WORD = 2**32
MOST_STEPS = 1000
LOCAL, GLOBAL, OPERAND, GLOBAL_U32 = range(4)
PIECE, STACK_VALUE, IMPLICIT_VALUE = 0x93, 0x9F, 0x9E


class NotThereError(FeulgamaError):
    """A variable has no value here. The message says why."""


@dataclass(frozen=True, slots=True)
class Context:
    """What an expression may read. `frame` is None without one; `base` is the expression of the function's frame, which is
    not set up yet where `is_early` is set; and `address_of` knows the addresses of a unit by their index."""
    frame: Frame | None
    memory: Memory
    address_of: Callable[[int], int]
    base: bytes | None = None
    is_early: bool = False


@dataclass(frozen=True, slots=True)
class Where:
    """A variable, or a part of one: at an address of memory, or a value that is in none. The other one is None."""
    address: int | None = None
    value: bytes | None = None

    def bytes_of(self, size: int, memory: Memory) -> bytes:
        """So many bytes of it. Raises NotThereError if they are not in memory."""
        if self.address is None:
            return (self.value or b"").ljust(size, b"\0")[:size]
        data = memory(self.address, size)
        if len(data) < size:
            raise NotThereError("not in memory")
        return data


def locate(expression: bytes, size: int, context: Context) -> Where:
    """Where an expression says that a variable of this size is. Raises NotThereError if it has no value, or if it
    cannot be known."""
    try:
        return Machine(expression, context).result(size)
    except (NotAModuleError, IndexError, ZeroDivisionError) as error:
        raise NotThereError("its description has a fault") from error


class Machine:
    """The stack machine of expressions. Its numbers have as many bits as the local that they are made of, and constants
    as many as the other operand, for so LLVM writes expressions. A constant that was negated bit by bit has 64."""

    def __init__(self, expression: bytes, context: Context) -> None:
        self._reader, self._context = Reader(expression), context
        self._stack: list[tuple[int, int]] = []
        self._is_value = False
        self._value: bytes | None = None
        self._steps = 0

    def result(self, size: int) -> Where:
        """Where the variable is, all its pieces together."""
        if self._reader.is_at_end():
            raise NotThereError(OPTIMIZED_OUT)
        pieces: list[tuple[int, Where]] = []
        while not self._reader.is_at_end():
            op = self._reader.byte()
            if op == PIECE:
                pieces.append((self._reader.unsigned(), self._here()))
            else:
                self._do(op)
        return joined(pieces, self._context.memory) if pieces else self._here(size)

    def number(self) -> int:
        """The number that the expression computes: the address of a function's frame."""
        while not self._reader.is_at_end():
            self._do(self._reader.byte())
        return self._pop()

    def _here(self, size: int = 8) -> Where:
        """What was computed since the last piece."""
        if self._value is not None:
            found = Where(value=self._value)
        elif not self._stack:
            raise NotThereError(OPTIMIZED_OUT)
        elif self._is_value:
            found = Where(value=(self._pop() % 2**64).to_bytes(8, "little"))
        else:
            found = Where(self._pop() % WORD)
        if found.value is not None and len(found.value) < size:
            found = Where(value=found.value.ljust(size, b"\0"))
        self._stack.clear()
        self._is_value, self._value = False, None
        return found

    def _pop(self) -> int:
        return self._stack.pop()[0]

    def _push(self, number: int, bits: int = 0) -> None:
        """Pushes a number of so many bits; a constant for none."""
        self._stack.append((number % 2**(bits or 64), bits))

    def _do(self, op: int) -> None:
        """One operation."""
        self._steps += 1
        if self._steps > MOST_STEPS:
            raise NotThereError("its description goes on for ever")
        if 0x30 <= op <= 0x4F:
            self._push(op - 0x30)
        elif op in CONSTANTS:
            size, is_signed = CONSTANTS[op]
            self._push(int.from_bytes(self._reader.take(size), "little", signed=is_signed))
        elif op in BINARY:
            (right, one), (left, other) = self._stack.pop(), self._stack.pop()
            bits = max(one, other)
            self._push(BINARY[op](left % 2**(bits or 64), right % 2**(bits or 64), bits or 64), bits)
        elif op in UNARY:
            number, bits = self._stack.pop()
            self._push(UNARY[op](signed(number, bits or 64)), bits or 64)
        elif op in OTHERS:
            OTHERS[op](self)
        else:
            raise NotThereError(f"its description has the operation {op:#04x}, which is not known here")

    # Operations with a method of their own.

    def _frame_base(self) -> None:
        offset = self._reader.signed()
        if self._context.base is None:
            raise NotThereError("its function has no frame in memory")
        if self._context.is_early:
            raise NotThereError("its function has not set up its frame yet")
        base = Machine(self._context.base, Context(self._context.frame, self._context.memory, self._context.address_of))
        self._push(base.number() + offset, 32)

    def _wasm_location(self) -> None:
        kind = self._reader.byte()
        index = int.from_bytes(self._reader.take(4), "little") if kind == GLOBAL_U32 else self._reader.unsigned()
        if kind in (GLOBAL, GLOBAL_U32):
            raise NotThereError(f"it is found by global {index}, which the shim does not show")
        if self._context.frame is None:
            raise NotThereError("there is no frame")
        values = self._context.frame.locals if kind == LOCAL else self._context.frame.operands
        if kind > OPERAND or index >= len(values):
            raise NotThereError(OPTIMIZED_OUT)
        self._push(values[index].number, 32 if values[index].type == ValueType.I32 else 64)
        self._is_value = True

    def _deref(self, size: int = 4) -> None:
        self._is_value = False
        self._push(int.from_bytes(Where(self._pop() % WORD).bytes_of(size, self._context.memory), "little"), 32)

    def _pick(self) -> None:
        self._stack.append(self._stack[-1 - self._reader.byte()])

    def _rotate(self) -> None:
        self._stack[-3:] = [self._stack[-1], self._stack[-3], self._stack[-2]]

    def _swap(self) -> None:
        self._stack[-2:] = self._stack[:-3:-1]

    def _skip(self, is_taken: bool = True) -> None:
        offset = int.from_bytes(self._reader.take(2), "little", signed=True)
        if is_taken:
            self._reader.at += offset

    def _implicit_value(self) -> None:
        self._value = self._reader.take(self._reader.unsigned())

    def _stack_value(self) -> None:
        self._is_value = True

    def _convert(self) -> None:
        if self._reader.unsigned() != 0:
            raise NotThereError("its description converts between types, which is not known here")

    def _thread_local(self) -> None:
        raise NotThereError("it is in memory of a thread, whose place the shim does not show")

    def _entry_value(self) -> None:
        raise NotThereError(OPTIMIZED_OUT)


def joined(pieces: list[tuple[int, Where]], memory: Memory) -> Where:
    """The pieces of a variable as one: in memory, if they follow one another there."""
    first, at, follow = pieces[0][1].address, 0, True
    for size, where in pieces:
        follow = follow and first is not None and where.address == first + at
        at += size
    if follow:
        return Where(first)
    return Where(value=b"".join(where.bytes_of(size, memory) for size, where in pieces))


def signed(number: int, bits: int) -> int:
    """The lowest bits of a number, with their sign."""
    return (number + (1 << bits - 1)) % (1 << bits) - (1 << bits - 1)


def divided(left: int, right: int, bits: int) -> int:
    """A quotient as C has it."""
    one, other = signed(left, bits), signed(right, bits)
    return abs(one) // abs(other) * (1 if (one < 0) == (other < 0) else -1)


CONSTANTS = {0x03: (4, False), 0x08: (1, False), 0x09: (1, True), 0x0A: (2, False), 0x0B: (2, True), 0x0C: (4, False),
             0x0D: (4, True), 0x0E: (8, False), 0x0F: (8, True)}
UNARY: dict[int, Callable[[int], int]] = {0x19: abs, 0x1F: lambda one: -one, 0x20: lambda one: ~one}
BINARY: dict[int, Callable[[int, int, int], int]] = {
    0x1A: lambda left, right, _bits: left & right, 0x1B: divided, 0x1C: lambda left, right, _bits: left - right,
    0x1D: lambda left, right, _bits: left % right, 0x1E: lambda left, right, _bits: left * right,
    0x21: lambda left, right, _bits: left | right, 0x22: lambda left, right, _bits: left + right,
    0x24: lambda left, right, _bits: left << min(right, 64), 0x25: lambda left, right, _bits: left >> min(right, 64),
    0x26: lambda left, right, bits: signed(left, bits) >> min(right, 64), 0x27: lambda left, right, _bits: left ^ right,
    0x29: lambda left, right, _bits: left == right, 0x2E: lambda left, right, _bits: left != right,
    0x2A: lambda left, right, bits: signed(left, bits) >= signed(right, bits),
    0x2B: lambda left, right, bits: signed(left, bits) > signed(right, bits),
    0x2C: lambda left, right, bits: signed(left, bits) <= signed(right, bits),
    0x2D: lambda left, right, bits: signed(left, bits) < signed(right, bits)}
OTHERS: dict[int, Callable[[Machine], None]] = {
    0x06: Machine._deref, 0x94: lambda found: found._deref(found._reader.byte()),
    0x10: lambda found: found._push(found._reader.unsigned()), 0x11: lambda found: found._push(found._reader.signed()),
    0x12: lambda found: found._stack.append(found._stack[-1]), 0x13: lambda found: found._stack.__delitem__(-1),
    0x14: lambda found: found._stack.append(found._stack[-2]), 0x15: Machine._pick, 0x16: Machine._swap, 0x17: Machine._rotate,
    0x23: lambda found: found._push(found._stack[-1][0] + found._reader.unsigned(), found._stack.pop()[1]),
    0x28: lambda found: found._skip(found._pop() != 0), 0x2F: Machine._skip, 0x91: Machine._frame_base,
    0x96: lambda _found: None, 0x9B: Machine._thread_local, 0xE0: Machine._thread_local,
    IMPLICIT_VALUE: Machine._implicit_value, STACK_VALUE: Machine._stack_value,
    0xA1: lambda found: found._push(found._context.address_of(found._reader.unsigned())),
    0xA2: lambda found: found._push(found._context.address_of(found._reader.unsigned())),
    0xA3: Machine._entry_value, 0xF3: Machine._entry_value, 0xA8: Machine._convert, 0xED: Machine._wasm_location}
