"""Modules: what bytes spell, whether that is valid, and whether a task can be opened on it."""
from __future__ import annotations

from collections.abc import Callable
from dataclasses import dataclass, field
from typing import Any

from suite.reference import system_calls

I32, I64 = 0x7F, 0x7E
MOST_BYTES, MOST_FUNCTIONS, MOST_LOCALS, MOST_VALUES = 262_144, 4096, 1024, 65_536
MOST_NESTING, MOST_ENTRIES, MOST_PAGES, PAGE_CAP, PAGE = 256, 4096, 256, 16, 65_536
MOST_RESULTS = 1024

# What a function or a block takes and gives; and an instruction: its opcode, and what follows it.
FuncType = tuple[tuple[int, ...], tuple[int, ...]]
Instruction = tuple[Any, ...]

# Instructions whose types never change: the opcode, and what they take and give.
FIXED: dict[int, FuncType] = {
    0x45: ((I32,), (I32,)), 0x50: ((I64,), (I32,)), 0xA7: ((I64,), (I32,)), 0xAC: ((I32,), (I64,)), 0xAD: ((I32,), (I64,))}
FIXED |= {0xC0: ((I32,), (I32,)), 0xC1: ((I32,), (I32,))}
FIXED |= {code: ((I64,), (I64,)) for code in range(0xC2, 0xC5)}
FIXED |= {code: ((I32, I32), (I32,)) for code in range(0x46, 0x50)}
FIXED |= {code: ((I64, I64), (I32,)) for code in range(0x51, 0x5B)}
FIXED |= {code: ((I32,), (I32,)) for code in range(0x67, 0x6A)}
FIXED |= {code: ((I32, I32), (I32,)) for code in range(0x6A, 0x79)}
FIXED |= {code: ((I64,), (I64,)) for code in range(0x79, 0x7C)}
FIXED |= {code: ((I64, I64), (I64,)) for code in range(0x7C, 0x8B)}

# Loads and stores: the type of the value, and how many bytes are accessed.
LOADS = {0x28: (I32, 4), 0x29: (I64, 8), 0x2C: (I32, 1), 0x2D: (I32, 1), 0x2E: (I32, 2), 0x2F: (I32, 2),
         0x30: (I64, 1), 0x31: (I64, 1), 0x32: (I64, 2), 0x33: (I64, 2), 0x34: (I64, 4), 0x35: (I64, 4)}
STORES = {0x36: (I32, 4), 0x37: (I64, 8), 0x3A: (I32, 1), 0x3B: (I32, 2), 0x3C: (I64, 1), 0x3D: (I64, 2),
          0x3E: (I64, 4)}
INDEXED = (0x0C, 0x0D, 0x10, *range(0x20, 0x25))
BARE = (0x00, 0x01, 0x0F, 0x1A, 0x1B)


class NotSpelled(Exception):
    """The bytes spell no module. `over`: a limit had been passed in front of the fault."""

    def __init__(self, over: bool = False) -> None:
        super().__init__()
        self.over = over


@dataclass
class Func:
    type_index: int
    locals: list[int]
    body: list[Instruction]


@dataclass
class Module:
    types: list[FuncType] = field(default_factory=list)
    imports: list[tuple[tuple[bytes, bytes], int]] = field(default_factory=list)
    indices: list[int] = field(default_factory=list)
    tables: list[tuple[int, int | None]] = field(default_factory=list)
    memories: list[tuple[int, int | None]] = field(default_factory=list)
    globals: list[tuple[int, int, list[Instruction]]] = field(default_factory=list)
    exports: list[tuple[bytes, int, int]] = field(default_factory=list)
    start: int | None = None
    elements: list[tuple[int, list[Instruction], list[int]]] = field(default_factory=list)
    funcs: list[Func] = field(default_factory=list)
    segments: list[tuple[int, list[Instruction], bytes]] = field(default_factory=list)


class Reader:
    """The bytes of a part, read from the front."""

    def __init__(self, data: bytes) -> None:
        self.data, self.at = data, 0

    def is_at_end(self) -> bool:
        return self.at == len(self.data)

    def take(self, count: int) -> bytes:
        if self.at + count > len(self.data):
            raise NotSpelled
        self.at += count
        return self.data[self.at - count:self.at]

    def byte(self) -> int:
        return self.take(1)[0]

    def leb(self, is_signed: bool, bits: int = 32) -> int:
        """A number of this many bits (5.2.2); a signed one as its two's complement."""
        groups = []
        while True:
            byte = self.byte()
            groups.append(byte & 0x7F)
            if byte < 0x80:
                break
            if len(groups) == -(-bits // 7):
                raise NotSpelled
        value = sum(group << (7 * k) for k, group in enumerate(groups))
        if is_signed and groups[-1] & 0x40:
            value -= 1 << (7 * len(groups))
        least, most = (-(1 << (bits - 1)), 1 << (bits - 1)) if is_signed else (0, 1 << bits)
        if not least <= value < most:
            raise NotSpelled
        return value % (1 << bits)

    def u32(self) -> int:
        return self.leb(False)

    def vector(self, item: Callable[..., Any]) -> list[Any]:
        return [item() for _ in range(self.u32())]

    def name(self) -> bytes:
        text = self.take(self.u32())
        try:
            text.decode("utf-8")
        except UnicodeDecodeError:
            raise NotSpelled from None
        return text

    def one_of(self, *bytes_: int) -> int:
        byte = self.byte()
        if byte not in bytes_:
            raise NotSpelled
        return byte

    def part(self) -> tuple[Any, bool]:
        """What follows a size, and whether all of it is there."""
        size = self.u32()
        there = self.data[self.at:self.at + size]
        self.at += len(there)
        return Reader(there), len(there) == size


class Decoder:
    def __init__(self, data: bytes) -> None:
        self.data = data
        self.over = len(data) > MOST_BYTES
        self.found = Module()

    def module(self) -> Module:
        try:
            self.sections(Reader(self.data))
        except NotSpelled:
            raise NotSpelled(self.over) from None
        return self.found

    def sections(self, reader: Any) -> None:
        if reader.take(8) != b"\0asm\1\0\0\0":
            raise NotSpelled
        reads = [None, self.type_section, self.import_section, self.function_section, self.table_section,
                 self.memory_section, self.global_section, self.export_section, self.start_section,
                 self.element_section, self.code_section, self.data_section]
        last = 0
        while not reader.is_at_end():
            number = reader.byte()
            part, is_whole = reader.part()
            if number == 0:
                part.name()
                part.at = len(part.data)
            elif last < number < len(reads):
                last = number
                reads[number](part)
            else:
                raise NotSpelled
            if not is_whole or not part.is_at_end():
                raise NotSpelled
        if len(self.found.funcs) != len(self.found.indices):
            raise NotSpelled

    def value_type(self, part: Reader) -> int:
        return part.one_of(I32, I64)

    def type_section(self, part: Reader) -> None:
        def func_type() -> FuncType:
            part.one_of(0x60)
            params = tuple(part.vector(lambda: self.value_type(part)))
            at = part.at
            self.over |= part.u32() > MOST_RESULTS
            part.at = at
            return params, tuple(part.vector(lambda: self.value_type(part)))

        self.found.types = part.vector(func_type)

    def count_functions(self, part: Reader, before: int) -> None:
        at = part.at
        self.over |= before + part.u32() > MOST_FUNCTIONS
        part.at = at

    def import_section(self, part: Reader) -> None:
        def entry() -> tuple[tuple[bytes, bytes], int]:
            names = part.name(), part.name()
            part.one_of(0)
            return names, part.u32()

        self.count_functions(part, 0)
        self.found.imports = part.vector(entry)

    def function_section(self, part: Reader) -> None:
        self.count_functions(part, len(self.found.imports))
        self.found.indices = part.vector(part.u32)

    def limits(self, part: Reader, most: int) -> tuple[int, int | None]:
        has_max = part.one_of(0, 1)
        least = part.u32()
        self.over |= least > most
        return least, part.u32() if has_max else None

    def table_section(self, part: Reader) -> None:
        def table() -> tuple[int, int | None]:
            part.one_of(0x70)
            return self.limits(part, MOST_ENTRIES)

        self.found.tables = part.vector(table)

    def memory_section(self, part: Reader) -> None:
        self.found.memories = part.vector(lambda: self.limits(part, MOST_PAGES))

    def global_section(self, part: Reader) -> None:
        def entry() -> tuple[int, int, list[Instruction]]:
            return self.value_type(part), part.one_of(0, 1), self.expression(part)

        self.found.globals = part.vector(entry)

    def export_section(self, part: Reader) -> None:
        def entry() -> tuple[bytes, int, int]:
            return part.name(), part.one_of(0, 1, 2, 3), part.u32()

        self.found.exports = part.vector(entry)

    def start_section(self, part: Reader) -> None:
        self.found.start = part.u32()

    def element_section(self, part: Reader) -> None:
        def entry() -> tuple[int, list[Instruction], list[int]]:
            return part.u32(), self.expression(part), part.vector(part.u32)

        self.found.elements = part.vector(entry)

    def data_section(self, part: Reader) -> None:
        def entry() -> tuple[int, list[Instruction], bytes]:
            memory, offset = part.u32(), self.expression(part)
            return memory, offset, part.take(part.u32())

        self.found.segments = part.vector(entry)

    def code_section(self, part: Reader) -> None:
        if part.u32() != len(self.found.indices):
            raise NotSpelled
        for index in self.found.indices:
            body, is_whole = part.part()
            self.found.funcs.append(self.code(body, index))
            if not is_whole or not body.is_at_end():
                raise NotSpelled

    def code(self, body: Reader, index: int) -> Func:
        types = self.found.types
        params = len(types[index][0]) if index < len(types) else 0
        self.over |= params > MOST_LOCALS
        locals_: list[int] = []
        for _ in range(body.u32()):
            count = body.u32()
            if params + len(locals_) + count > MOST_LOCALS:
                self.over = True
                raise NotSpelled
            locals_ += [self.value_type(body)] * count
        return Func(index, locals_, self.expression(body))

    def expression(self, part: Reader) -> list[Instruction]:
        """Instructions up to the end that belongs to them, each a tuple of its opcode and what follows it."""
        return self.sequence(part, 0)[0]

    def sequence(self, part: Reader, depth: int) -> tuple[list[Instruction], int]:
        found: list[Instruction] = []
        while (opcode := part.byte()) not in (0x05, 0x0B):
            if opcode in (0x02, 0x03, 0x04):
                if depth == MOST_NESTING:
                    self.over = True
                    raise NotSpelled
                found.append(self.block(part, opcode, depth + 1))
            else:
                found.append((opcode, *self.immediates(part, opcode)))
        if opcode == 0x05 and depth == 0:
            raise NotSpelled
        return found, opcode

    def block(self, part: Reader, opcode: int, depth: int) -> Instruction:
        kind = self.block_type(part)
        first, closed_by = self.sequence(part, depth)
        second: list[Instruction] = []
        if closed_by == 0x05:
            if opcode != 0x04:
                raise NotSpelled
            second, closed_by = self.sequence(part, depth)
            if closed_by == 0x05:
                raise NotSpelled
        return opcode, kind, first, second

    def block_type(self, part: Reader) -> Any:
        """What a block gives, or the index of its type, a number of 33 bits that is not negative (Core 2.0, 5.4.1)."""
        if part.data[part.at:part.at + 1] in (b"\x40", bytes([I32]), bytes([I64])):
            kind = part.byte()
            return () if kind == 0x40 else (kind,)
        index = part.leb(True, 33)
        if index >= 2**32:
            raise NotSpelled
        return index

    def immediates(self, part: Reader, opcode: int) -> tuple[Any, ...]:
        if opcode in FIXED or opcode in BARE:
            return ()
        if opcode in INDEXED:
            return (part.u32(),)
        if opcode in LOADS or opcode in STORES:
            return part.u32(), part.u32()
        if opcode == 0x0E:
            return part.vector(part.u32), part.u32()
        if opcode == 0x11:
            index = part.u32()
            part.one_of(0)
            return (index,)
        if opcode in (0x3F, 0x40):
            part.one_of(0)
            return ()
        if opcode in (0x41, 0x42):
            return (part.leb(True, 32 if opcode == 0x41 else 64),)
        raise NotSpelled


class NotValid(Exception):
    """The module is not valid. `place`: the function and the number of the instruction at fault, of a fault in a body."""

    place: tuple[int, int] | None = None


def demand(holds: Any) -> None:
    if not holds:
        raise NotValid


def func_type(module: Module, index: int) -> FuncType:
    demand(index < len(module.imports) + len(module.funcs))
    indices = [index for _, index in module.imports] + [func.type_index for func in module.funcs]
    demand(indices[index] < len(module.types))
    return module.types[indices[index]]


def types_of(module: Module, kind: tuple[int, ...] | int) -> FuncType:
    """What a block takes and gives."""
    if isinstance(kind, tuple):
        return (), kind
    demand(kind < len(module.types))
    return module.types[kind]


def size(instruction: tuple[Any, ...]) -> int:
    """How many instructions there are, those inside a block included."""
    if instruction[0] not in (0x02, 0x03, 0x04):
        return 1
    return 1 + sum(size(inner) for arm in instruction[2:] for inner in arm)


class Block:
    """The operands of a block, and what a branch to it takes; below an unreachable point there may be any."""

    def __init__(self, label: tuple[int, ...], params: tuple[int, ...], results: tuple[int, ...]) -> None:
        self.label, self.results, self.stack, self.is_unreachable = label, results, [*params], False

    def take(self, wanted: int | None) -> int | None:
        if not self.stack and self.is_unreachable:
            return None
        demand(self.stack)
        top = self.stack.pop()
        demand(None in (top, wanted) or top == wanted)
        return top

    def take_all(self, types: tuple[int, ...]) -> None:
        for kind in reversed(types):
            self.take(kind)

    def give_all(self, types: Any) -> None:
        self.stack += types

    def leave(self) -> None:
        self.stack, self.is_unreachable = [], True

    def close(self) -> None:
        self.take_all(self.results)
        demand(not self.stack)


class Body:
    """The validation of one function's body (appendix A.3). `at`: the number of the instruction that is checked.
    `operands`: the types of the operands of all open blocks before the instruction whose number is looked for."""

    def __init__(self, module: Module, func: Func, looked_for: int | None = None) -> None:
        params, results = module.types[func.type_index]
        self.module, self.locals, self.results = module, [*params, *func.locals], results
        self.blocks: list[Block] = []
        self.operands: list[int | None] | None = None
        self.at, self.looked_for = 0, looked_for
        self.body = func.body

    def check(self) -> None:
        count = sum(map(size, self.body))
        self.sequence(self.body, 0, count, self.results, (), self.results)

    def sequence(self, instructions: list[Instruction], first: int, owner: int, label: tuple[int, ...],
                 params: tuple[int, ...], results: tuple[int, ...]) -> None:
        """Instructions numbered from the first on; a fault at their end is that of the owner."""
        self.blocks.append(Block(label, params, results))
        for instruction in instructions:
            self.at = first
            if first == self.looked_for:
                self.operands = [kind for block in self.blocks for kind in block.stack]
            self.instruction(self.blocks[-1], *instruction)
            first += size(instruction)
        self.at = owner
        self.blocks.pop().close()

    def label(self, index: int) -> tuple[int, ...]:
        demand(index < len(self.blocks))
        return self.blocks[-1 - index].label

    def instruction(self, block: Block, opcode: int, *rest: Any) -> None:
        if opcode in FIXED:
            takes, gives = FIXED[opcode]
            block.take_all(takes)
            block.give_all(gives)
        elif opcode in (0x02, 0x03, 0x04):
            self.nested(block, opcode, *rest)
        elif opcode in LOADS or opcode in STORES:
            self.access(block, opcode, *rest)
        elif opcode in (0x20, 0x21, 0x22, 0x23, 0x24):
            self.variable(block, opcode, *rest)
        elif opcode in (0x1A, 0x1B, 0x3F, 0x40, 0x41, 0x42):
            self.operand(block, opcode)
        else:
            self.control(block, opcode, *rest)

    def nested(self, block: Block, opcode: int, kind: Any, first: list[Instruction],
               second: list[Instruction]) -> None:
        params, results = types_of(self.module, kind)
        label, owner = params if opcode == 0x03 else results, self.at
        if opcode == 0x04:
            block.take(I32)
        block.take_all(params)
        self.sequence(first, owner + 1, owner, label, params, results)
        if opcode == 0x04:
            self.sequence(second, owner + 1 + sum(map(size, first)), owner, label, params, results)
        block.give_all(results)

    def access(self, block: Block, opcode: int, align: int, _offset: int) -> None:
        kind, count = (LOADS | STORES)[opcode]
        demand(self.module.memories and 2**align <= count)
        block.take_all((I32,) if opcode in LOADS else (I32, kind))
        block.give_all((kind,) if opcode in LOADS else ())

    def variable(self, block: Block, opcode: int, index: int) -> None:
        demand(index < (len(self.locals) if opcode < 0x23 else len(self.module.globals)))
        kind = self.locals[index] if opcode < 0x23 else self.module.globals[index][0]
        demand(opcode != 0x24 or self.module.globals[index][1] == 1)
        if opcode not in (0x20, 0x23):
            block.take(kind)
        if opcode in (0x20, 0x22, 0x23):
            block.give_all([kind])

    def operand(self, block: Block, opcode: int) -> None:
        if opcode == 0x1A:
            block.take(None)
        elif opcode == 0x1B:
            block.take(I32)
            second = block.take(None)
            first = block.take(second)
            block.give_all([first if second is None else second])
        elif opcode in (0x41, 0x42):
            block.give_all([I32 if opcode == 0x41 else I64])
        else:
            demand(self.module.memories)
            if opcode == 0x40:
                block.take(I32)
            block.give_all([I32])

    def control(self, block: Block, opcode: int, *rest: Any) -> None:
        if opcode == 0x0D:
            block.take(I32)
            types = self.label(rest[0])
            block.take_all(types)
            block.give_all(types)
        elif opcode in (0x10, 0x11):
            self.call(block, opcode, *rest)
        elif opcode != 0x01:
            if opcode == 0x0C:
                block.take_all(self.label(rest[0]))
            elif opcode == 0x0E:
                block.take(I32)
                types = self.label(rest[1])
                demand(all(self.label(index) == types for index in rest[0]))
                block.take_all(types)
            elif opcode == 0x0F:
                block.take_all(self.results)
            block.leave()

    def call(self, block: Block, opcode: int, index: int) -> None:
        if opcode == 0x10:
            params, results = func_type(self.module, index)
        else:
            demand(self.module.tables and index < len(self.module.types))
            block.take(I32)
            params, results = self.module.types[index]
        block.take_all(params)
        block.give_all(results)


def is_constant(expression: list[Instruction], kind: int) -> bool:
    return len(expression) == 1 and bool(expression[0][0] == (0x41 if kind == I32 else 0x42))


def check(module: Module) -> None:
    functions = len(module.imports) + len(module.funcs)
    counts = functions, len(module.tables), len(module.memories), len(module.globals)
    names = [name for name, _, _ in module.exports]
    demand(all(index < len(module.types) for _, index in module.imports))
    demand(all(func.type_index < len(module.types) for func in module.funcs))
    demand(len(module.tables) <= 1 and len(module.memories) <= 1)
    demand(all(most is None or least <= most for least, most in module.tables + module.memories))
    demand(all(max(least, most or 0) <= 65_536 for least, most in module.memories))
    demand(all(is_constant(value, kind) for kind, _, value in module.globals))
    demand(all(index < counts[kind] for _, kind, index in module.exports))
    demand(len(set(names)) == len(names))
    demand(module.start is None or func_type(module, module.start) == ((), ()))
    for table, offset, indices in module.elements:
        demand(table < len(module.tables) and is_constant(offset, I32) and all(i < functions for i in indices))
    demand(all(memory < len(module.memories) and is_constant(offset, I32) for memory, offset, _ in module.segments))
    for number, func in enumerate(module.funcs):
        body = Body(module, func)
        try:
            body.check()
        except NotValid as fault:
            fault.place = len(module.imports) + number, body.at
            raise


def fault_of(module: Module) -> NotValid | None:
    """None of a valid module; else the function and the number of the instruction at fault, or no place."""
    try:
        check(module)
    except NotValid as fault:
        return fault
    return None


def is_inside(module: Module) -> bool:
    entries = module.tables[0][0] if module.tables else 0
    size = module.memories[0][0] * PAGE if module.memories else 0
    return (all(offset[0][1] + len(indices) <= entries for _, offset, indices in module.elements)
            and all(offset[0][1] + len(data) <= size for _, offset, data in module.segments))


def entry_of(module: Module) -> int | None:
    """The function that a task runs, where there is one."""
    found = [index for name, kind, index in module.exports
             if name == b"_start" and kind == 0 and func_type(module, index) == ((), ())]
    return found[0] if found else None


def refusals_of(data: bytes, cap: int = PAGE_CAP) -> set[tuple[int, tuple[int, int] | None]]:
    """The numbers with which a create may be refused over these bytes and this cap on pages, and of 8 the place; none
    where it is accepted."""
    try:
        decoder = Decoder(data)
        module = decoder.module()
    except NotSpelled as not_spelled:
        return {(9, None) if not_spelled.over else (7, None)}
    if decoder.over:
        return {(9, None)}
    fault = fault_of(module)
    if fault is not None:
        return {(8, fault.place)}
    if entry_of(module) is None or system_calls.lacks_memory(module):
        return {(21, None)}
    if not all(system_calls.is_known(names, module.types[index]) for names, index in module.imports):
        return {(22, None)}
    if module.memories and module.memories[0][0] > cap:
        return {(9, None)}
    return set() if is_inside(module) else {(23, None)}
