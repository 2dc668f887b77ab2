"""A function's body that counts the turns that it makes, and tests what its stores write.

Instructions that are executed together are counted together, before the first of them. After each store that may write
the bytes that are watched comes a test of its address, and if it has written there a call of the function `hit`, with
the number of turns that are counted already and not made yet.
"""
from __future__ import annotations

import collections
from collections.abc import Callable
from dataclasses import dataclass

from feulgama.wasm import opcodes as op
from feulgama.wasm import writer as w
from feulgama.wasm.body import Instruction
from feulgama.wasm.module import FuncType, Function, Module
from feulgama.wasm.reader import Reader

WIDE_STORES = (0x37, 0x3C, 0x3D, 0x3E)
# After these another instruction may come than the next one, or the turns of another function.
LEAVING = (op.IF, op.BR, op.BR_IF, op.BR_TABLE, op.CALL, op.CALL_INDIRECT, op.UNREACHABLE, op.RETURN)
# How many operands these take and give.
EFFECTS = {op.I64_CONST: (0, 1), op.GLOBAL_GET: (0, 1), op.MEMORY_SIZE: (0, 1), op.DROP: (1, 0), op.GLOBAL_SET: (1, 0),
           op.SELECT: (3, 1), op.NOP: (0, 0), op.BR_IF: (1, 0), op.MEMORY_GROW: (1, 1)}
LONGEST, FAR_APART = 200, 100
MOST_LOCALS, MOST_DEPTH = 1020, 256


@dataclass(slots=True)
class Segment:
    """Instructions that are executed together. `turns` is how many; `shows` says that where they are counted the last
    write is shown."""
    shows: bool
    turns: int = 0


@dataclass(frozen=True, slots=True)
class Rest:
    """The constant that is how many turns of a segment follow after the first ones."""
    segment: Segment
    made: int


@dataclass(frozen=True, slots=True)
class Origin:
    """What is known of an operand: it is a constant, or what a local held when it was set so many times, and a constant."""
    local: int | None
    times: int
    added: int


@dataclass(frozen=True, slots=True)
class Tests:
    """What is looked for, and what does it: writes to `size` bytes from an address on; the globals that have the turns made
    and the last write; the function `hit`, and the one to call in place of a store or of a system call that writes."""
    address: int
    size: int
    turns: int
    last: int
    hit: int
    store: Callable[[int, bytes], int]
    system_call: Callable[[int], int | None]

    def meets(self, address: int, size: int) -> bool:
        """Whether a write of so many bytes from an address on writes some that are watched."""
        return address < self.address + self.size and address + size > self.address

    def of(self, operand: bytes, offset: int, size: int) -> list[bytes]:
        """The instructions that tell that of an operand and what is added to it, and of a write that was made."""
        added = (offset - self.address + size - 1) % 2**32
        return [operand, *([w.i32(added), w.I32_ADD] if added else []), w.i32(self.size + size - 1), w.I32_LT_U]


class Counted:
    """A body. With `is_short` stores are functions, which takes more turns and fewer bytes."""

    def __init__(self, module: Module, function: Function, tests: Tests, is_short: bool) -> None:
        self._module, self._function, self._tests = module, function, tests
        self._is_short = is_short or len(function.locals) > MOST_LOCALS
        self._parts: list[tuple[bytes | Segment | Rest, int]] = []
        self._segment: Segment | None = None
        self._apart = FAR_APART
        self._stack: list[Origin | None] = []
        self._times: collections.Counter[int] = collections.Counter()
        self._added: dict[int, int] = {}
        self.shows: list[int] = []
        self.body = self._made()

    def _made(self) -> bytes:
        """The body's bytes. Places where the turns made and the last write are shown are in `shows`."""
        data, start = self._module.data, self._module.code_at
        first = self._function.instructions[0].offset if self._function.instructions else self._function.end - 1
        at = start + first
        for instruction in self._function.instructions:
            begin = start + instruction.offset
            self._edges(data[at:begin])
            at = begin + instruction.size
            self._instruction(instruction, data[begin:at])
        self._edges(data[at:start + self._function.end])
        code = self._rendered()
        return w.sized(self._locals() + code)

    def _locals(self) -> bytes:
        """The locals that are declared: the function's own, and those that were added."""
        own = self._function.locals[len(self._function.type.params):]
        kinds = [op.I32 if kind == "i32" else op.I64 for kind in own] + [abs(kind) for kind in self._added]
        runs: list[list[int]] = []
        for kind in kinds:
            if runs and runs[-1][1] == kind:
                runs[-1][0] += 1
            else:
                runs.append([1, kind])
        return w.vector([w.unsigned(count) + bytes([kind]) for count, kind in runs])

    def _rendered(self) -> bytes:
        """The code, once all segments are whole."""
        tests, code, place = self._tests, b"", 0
        pieces = []
        for part, count in self._parts:
            if isinstance(part, Segment):
                counting = w.get_global(tests.turns) + w.i64(part.turns) + w.I64_ADD + w.set_global(tests.turns)
                if part.shows:
                    self.shows.append(place + 2)
                    counting = w.get_global(tests.last) + counting + w.DROP
                count = 6 if part.shows else 4
                pieces.append(counting)
            else:
                pieces.append(w.i64(part.segment.turns - part.made) if isinstance(part, Rest) else part)
            place += count
        return code + b"".join(pieces)

    def _add(self, *instructions: bytes) -> None:
        self._parts += [(data, 1) for data in instructions]

    def _edges(self, ends: bytes) -> None:
        """The ends and the elses between two instructions. Those that follow are counted by themselves."""
        if ends:
            self._parts.append((ends, 0))
            self._stack.clear()
            self._segment = None

    def _begin(self, shows: bool) -> Segment:
        """Begins to count."""
        shows = shows or self._apart >= FAR_APART
        self._apart = 0 if shows else self._apart
        self._segment = Segment(shows)
        self._parts.append((self._segment, 0))
        return self._segment

    def _instruction(self, instruction: Instruction, data: bytes) -> None:
        self._apart += 1
        if instruction.opcode == op.LOOP:
            self._add(data)
            self._stack.clear()
            self._begin(True).turns += 1
            return
        segment = self._segment
        if segment is None or segment.turns >= LONGEST:
            segment = self._begin(segment is not None)
        segment.turns += 1
        called = self._tests.system_call(Reader(data, 1).unsigned()) if instruction.opcode == op.CALL else None
        if instruction.opcode in op.STORES:
            self._store(instruction, data, segment)
        else:
            self._add(data if called is None else w.call(called))
            self._note(instruction.opcode, data)
        if instruction.opcode in LEAVING:
            self._segment = None

    # Stores.

    def _store(self, instruction: Instruction, data: bytes, segment: Segment) -> None:
        """A store, and the test of what it writes."""
        self._pop()
        address, part = self._pop(), Reader(data, 1)
        part.unsigned()
        offset, size = part.unsigned(), op.ACCESSES[instruction.opcode][1]
        rest = (Rest(segment, segment.turns), 1), (w.call(self._tests.hit), 1)
        if address is not None and address.local is None:
            self._add(data)
            if self._tests.meets(address.added + offset, size):
                self._parts += rest
            return
        if self._is_short or instruction.depth >= MOST_DEPTH:
            self._parts += [rest[0], (w.call(self._tests.store(instruction.opcode, data)), 1)]
            return
        if address is not None and address.local is not None and self._times[address.local] == address.times:
            self._add(data, *self._tests.of(w.get(address.local), address.added + offset, size))
        else:
            base, value = self._local(op.I32), self._local(op.I64 if instruction.opcode in WIDE_STORES else -op.I32)
            self._add(w.set_local(value), w.tee(base), w.get(value), data, *self._tests.of(w.get(base), offset, size))
        self._add(w.IF)
        self._parts += [*rest, (bytes([op.END]), 0)]

    def _local(self, kind: int) -> int:
        """A local of its own, for an address, a value of 32 bits (a negative kind) or one of 64 bits."""
        return self._added.setdefault(kind, len(self._function.locals) + len(self._added))

    # What is known of operands.

    def _pop(self) -> Origin | None:
        return self._stack.pop() if self._stack else None

    def _note(self, opcode: int, data: bytes) -> None:
        """Takes note of what an instruction leaves."""
        match opcode:
            case op.I32_CONST:
                self._stack.append(Origin(None, 0, Reader(data, 1).signed() % 2**32))
            case op.LOCAL_GET:
                local = Reader(data, 1).unsigned()
                self._stack.append(Origin(local, self._times[local], 0))
            case op.LOCAL_SET | op.LOCAL_TEE:
                local = Reader(data, 1).unsigned()
                self._pop()
                self._times[local] += 1
                self._stack += [Origin(local, self._times[local], 0)] * (opcode == op.LOCAL_TEE)
            case op.I32_ADD | op.I32_SUB:
                second, first = self._pop(), self._pop()
                self._stack.append(sum_of(first, second) if opcode == op.I32_ADD else difference(first, second))
            case op.CALL:
                self._note_call(self._module.type_of(Reader(data, 1).unsigned()))
            case op.CALL_INDIRECT:
                self._pop()
                self._note_call(self._module.types[Reader(data, 1).unsigned()])
            case _:
                self._note_effect(*effect(opcode))

    def _note_call(self, kind: FuncType) -> None:
        """A call of a function of a type."""
        self._note_effect(len(kind.params), len(kind.results))

    def _note_effect(self, taken: int | None, given: int) -> None:
        """An instruction that takes and gives so many operands."""
        if taken is None:
            self._stack.clear()
            return
        del self._stack[max(0, len(self._stack) - taken):]
        self._stack += [None] * given


def sum_of(first: Origin | None, second: Origin | None) -> Origin | None:
    """What is known of the sum of two operands."""
    if first is not None and second is not None and (first.local is None or second.local is None):
        base = second if first.local is None else first
        return Origin(base.local, base.times, (first.added + second.added) % 2**32)
    return None


def difference(first: Origin | None, second: Origin | None) -> Origin | None:
    """What is known of an operand less another one."""
    if first is not None and second is not None and second.local is None:
        return Origin(first.local, first.times, (first.added - second.added) % 2**32)
    return None


def effect(opcode: int) -> tuple[int | None, int]:
    """How many operands an instruction takes and gives; None of one that begins or leaves a block."""
    word = op.BARE.get(opcode, "")
    if opcode in EFFECTS:
        return EFFECTS[opcode]
    if opcode in op.LOADS:
        return 1, 1
    if "." not in word:
        return None, 0
    return (2 if word.partition(".")[2] in (*op.RELATIONS, *op.BINARY) else 1), 1
