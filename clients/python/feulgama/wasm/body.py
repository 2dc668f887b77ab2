"""Bodies of functions as numbered instructions, with the text that `wasm-shim check --list` prints."""
from __future__ import annotations

from dataclasses import dataclass

from feulgama.wasm import opcodes as op
from feulgama.wasm.reader import NotAModuleError, Reader


@dataclass(frozen=True, slots=True)
class Instruction:
    """An instruction. `place` is its number in the function; `text` its line of a listing; `depth` how many blocks are
    open round it; `offset` where its first byte is, counted from the first byte of the contents of the code section,
    as line tables count; `size` its bytes, a block's first line alone. `block` is the place of the block that it is
    in, None if it is in none; `is_in_else` says that it is in the second arm of that block."""
    place: int
    opcode: int
    text: str
    depth: int
    offset: int
    size: int
    block: int | None
    is_in_else: bool

    @property
    def is_call(self) -> bool:
        """Whether it calls a function."""
        return self.opcode in op.CALLS


def instructions(reader: Reader, start: int) -> list[Instruction]:
    """The instructions of a body up to its end. `start` is where the contents of the code section begin."""
    found: list[Instruction] = []
    open_: list[tuple[int, bool]] = []
    while True:
        at = reader.at
        opcode = reader.byte()
        if opcode == op.END:
            if not open_:
                return found
            open_.pop()
        elif opcode == op.ELSE:
            if not open_:
                raise NotAModuleError("an else is in no block")
            open_[-1] = open_[-1][0], True
        else:
            text = text_of(reader, opcode)
            block, is_in_else = open_[-1] if open_ else (None, False)
            found.append(Instruction(len(found), opcode, text, len(open_), at - start, reader.at - at, block, is_in_else))
            if opcode in op.BLOCKS:
                open_.append((found[-1].place, False))


def text_of(reader: Reader, opcode: int) -> str:
    """The line of an instruction whose opcode was read."""
    if opcode in op.BARE:
        return op.BARE[opcode]
    if opcode in op.INDEXED:
        return f"{op.INDEXED[opcode]} {reader.unsigned()}"
    if opcode in op.ACCESSES:
        return access(reader, *op.ACCESSES[opcode])
    if opcode in (op.I32_CONST, op.I64_CONST):
        return f"{'i32' if opcode == op.I32_CONST else 'i64'}.const {reader.signed()}"
    if opcode in op.BLOCKS:
        return op.BLOCKS[opcode] + block_type(reader)
    if opcode == op.BR_TABLE:
        labels = [*reader.vector(reader.unsigned), reader.unsigned()]
        return f"br_table {' '.join(map(str, labels))}"
    if opcode == op.CALL_INDIRECT:
        index = reader.unsigned()
        reader.byte()
        return f"call_indirect (type {index})"
    if opcode in (op.MEMORY_SIZE, op.MEMORY_GROW):
        reader.byte()
        return "memory.size" if opcode == op.MEMORY_SIZE else "memory.grow"
    raise NotAModuleError(f"there is no instruction with the byte {opcode:#04x} in the profile")


def access(reader: Reader, word: str, natural: int) -> str:
    """A load or a store: an offset that is not 0, and an alignment that is not natural, are told."""
    exponent, offset = reader.unsigned(), reader.unsigned()
    if exponent > 31:
        raise NotAModuleError("an alignment is too large")
    align = 1 << exponent
    return f"{word}{f' offset={offset}' if offset else ''}{f' align={align}' if align != natural else ''}"


def block_type(reader: Reader) -> str:
    """What follows the word of a block."""
    kind = reader.signed()
    if kind == -0x40:
        return ""
    if kind >= 0:
        return f" (type {kind})"
    return f" (result {op.TYPES[kind & 0x7F]})"
