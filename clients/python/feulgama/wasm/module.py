"""A module: its functions with their instructions, its exports, and its custom sections."""
from __future__ import annotations

from dataclasses import dataclass, field

from feulgama.wasm import opcodes as op
from feulgama.wasm.body import Instruction, instructions
from feulgama.wasm.reader import NotAModuleError, Reader

HEAD = b"\0asm\1\0\0\0"


@dataclass(frozen=True, slots=True)
class FuncType:
    """The types that a function takes and gives."""
    params: tuple[str, ...]
    results: tuple[str, ...]


@dataclass(frozen=True, slots=True)
class Function:
    """A function of the module's own. `index` counts imports first; `locals` has the types of its locals, parameters
    first; the body's bytes are from `begin` up to `end`, counted as `Instruction.offset` is."""
    index: int
    type: FuncType
    locals: tuple[str, ...]
    instructions: tuple[Instruction, ...]
    begin: int
    end: int


@dataclass(slots=True)
class Module:
    """What was read of a module's bytes. `exports` has names and indices of functions alone. `sent` is the module
    without its custom sections, which mean nothing to a shim, and may be most of its bytes."""
    data: bytes
    sent: bytes = HEAD
    types: list[FuncType] = field(default_factory=list)
    imports: list[tuple[str, str, int]] = field(default_factory=list)
    indices: list[int] = field(default_factory=list)
    functions: list[Function] = field(default_factory=list)
    exports: dict[str, int] = field(default_factory=dict)
    customs: dict[str, bytes] = field(default_factory=dict)
    code_at: int = 0

    def function(self, index: int) -> Function | None:
        """The function with an index; None of an import, or if there is none."""
        own = index - len(self.imports)
        return self.functions[own] if 0 <= own < len(self.functions) else None

    def type_of(self, index: int) -> FuncType:
        """The type of a function, which may be an import."""
        own = index - len(self.imports)
        return self.types[self.imports[index][2] if own < 0 else self.indices[own]]

    def instruction(self, func: int, place: int) -> Instruction | None:
        """The instruction at a place; None if there is none."""
        function = self.function(func)
        if function is None or not 0 <= place < len(function.instructions):
            return None
        return function.instructions[place]


def decode(data: bytes) -> Module:
    """The module that bytes encode. Raises NotAModuleError; the shim finds more faults than this."""
    if data[:8] != HEAD:
        raise NotAModuleError("the bytes do not begin as a module does")
    reader, module = Reader(data, 8), Module(data)
    while not reader.is_at_end():
        begin = reader.at
        number = reader.byte()
        part = reader.part()
        if number != 0:
            module.sent += data[begin:reader.at]
        try:
            read_section(module, number, part)
        except (IndexError, KeyError) as error:
            raise NotAModuleError(f"section {number} has a fault") from error
    return module


def read_section(module: Module, number: int, part: Reader) -> None:
    """Reads one section, if a debugger needs it."""
    match number:
        case 0:
            name = part.name()
            module.customs.setdefault(name, part.take(part.end - part.at))
        case 1:
            module.types = part.vector(lambda: func_type(part))
        case 2:
            module.imports = part.vector(lambda: imported(part))
        case 3:
            module.indices = part.vector(part.unsigned)
        case 7:
            module.exports = dict(entry[:2] for entry in part.vector(lambda: exported(part)) if entry[2] == 0)
        case 10:
            module.code_at = part.at
            count = len(module.imports)
            part.unsigned()
            module.functions = [function(module, count + at, part.part()) for at in range(len(module.indices))]


def func_type(part: Reader) -> FuncType:
    part.byte()
    params, results = (tuple(op.TYPES[kind] for kind in part.vector(part.byte)) for _ in range(2))
    return FuncType(params, results)


def imported(part: Reader) -> tuple[str, str, int]:
    module, name = part.name(), part.name()
    if part.byte() != 0:
        raise NotAModuleError("an import is no function")
    return module, name, part.unsigned()


def exported(part: Reader) -> tuple[str, int, int]:
    name, kind = part.name(), part.byte()
    return name, part.unsigned(), kind


def function(module: Module, index: int, body: Reader) -> Function:
    """A function of the module's own, whose type was read before."""
    begin, kind = body.at - module.code_at, module.types[module.indices[index - len(module.imports)]]
    declared: list[str] = []
    for _ in range(body.unsigned()):
        count = body.unsigned()
        if count > 1024:
            raise NotAModuleError("a function has too many locals")
        declared += [op.TYPES[body.byte()]] * count
    found = tuple(instructions(body, module.code_at))
    return Function(index, kind, (*kind.params, *declared), found, begin, body.end - module.code_at)
