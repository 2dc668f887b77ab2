"""A function's body, with what the profile lacks replaced. Each instruction is replaced by one instruction, so places stay."""
from __future__ import annotations

from array import array
from dataclasses import dataclass, field
from typing import Protocol

from feulgama.lowering import floats, forms
from feulgama.lowering.errors import LoweringError, Refusal
from feulgama.lowering.forms import FORMS, Form
from feulgama.wasm import opcodes as op
from feulgama.wasm.reader import NotAModuleError, Reader

MOST = 2**32


class Edits(Protocol):
    """What takes the place of instructions."""

    def call(self, index: int) -> bytes | None:
        """The instruction in place of a call of a function; None if it stays."""

    def indirect(self, kind: int) -> bytes | None:
        """The instruction in place of a call through the table of functions of a type; None if it stays."""

    def bulk(self, number: int, segment: int) -> bytes:
        """The instruction in place of one on a range of memory; `segment` means nothing to a copy and a fill."""

    def operation(self, word: str) -> bytes:
        """The instruction in place of one on floats, which is not its access of memory and no constant."""

    def note(self, what: str) -> None:
        """Counts what was replaced in another way."""


@dataclass(slots=True)
class Body:
    """What was read of a body: its bytes as they have to be, and of the original where it begins, ends, and where each
    instruction is, all from the first byte of its file, and runs of its locals: how many, and their type."""
    begin: int
    end: int
    data: bytes = b""
    is_changed: bool = False
    offsets: array[int] = field(default_factory=lambda: array("L"))
    locals: list[tuple[int, int]] = field(default_factory=list)


def u32(reader: Reader) -> int:
    """A number of 32 bits."""
    begin, value = reader.at, reader.unsigned()
    if value >= MOST or reader.at - begin > 5:
        raise Refusal("a number has more than 32 bits")
    return value


def value_type(reader: Reader) -> int:
    """A type of integers or of floats."""
    kind = reader.byte()
    if kind not in op.TYPES and kind not in floats.TYPES:
        raise Refusal(forms.reason_of_type(kind))
    return kind


def rewritten(reader: Reader, function: int, edits: Edits) -> Body:
    """The body that a reader has. Raises LoweringError with the function, the place and the offset."""
    work = Work(reader, edits)
    try:
        work.read_locals()
        work.read_instructions()
    except (Refusal, NotAModuleError) as error:
        place = len(work.body.offsets)
        raise LoweringError(f"offset {work.at}, function {function}, place {place}: {error}") from error
    return work.body


class Work:
    """The reading of one body."""

    def __init__(self, reader: Reader, edits: Edits) -> None:
        self._reader, self._edits = reader, edits
        self.at = self._kept = reader.at
        self._out = bytearray()
        self.body = Body(reader.at, reader.end)

    def read_locals(self) -> None:
        """Runs of locals of one type."""
        for _ in range(u32(self._reader)):
            self.at = self._reader.at
            self.body.locals.append((u32(self._reader), kind := value_type(self._reader)))
            self._note_type(kind, self._reader.data[self.at:self._reader.at - 1])

    def read_instructions(self) -> None:
        """All instructions up to the end of the body."""
        reader, offsets, depth = self._reader, self.body.offsets, 1
        while depth:
            self.at = reader.at
            opcode = reader.byte()
            form = FORMS[opcode]
            if form == Form.END:
                depth -= 1
                continue
            if form == Form.BLOCK:
                depth += 1
            self._read(form, opcode)
            if form != Form.ELSE:
                offsets.append(self.at)
        if not reader.is_at_end():
            raise Refusal("bytes follow the end of the body")
        self.body.is_changed = bool(self._out)
        self._out += reader.data[self._kept:reader.end]
        self.body.data = bytes(self._out)

    def _read(self, form: Form, opcode: int) -> None:
        """What follows an opcode, replaced if the profile lacks it."""
        reader = self._reader
        match form:
            case Form.BARE | Form.ELSE:
                pass
            case Form.INDEX:
                u32(reader)
            case Form.ACCESS:
                self._read_access()
            case Form.CONSTANT:
                reader.signed()
            case Form.BLOCK:
                self._note_type(block_type(reader), bytes([opcode]))
            case Form.BR_TABLE:
                for _ in range(u32(reader) + 1):
                    u32(reader)
            case Form.CALL:
                found = self._edits.call(u32(reader))
                if found is not None:
                    self._replace(found)
            case Form.CALL_INDIRECT:
                self._read_zero("table", self._edits.indirect(u32(reader)))
            case Form.MEMORY:
                self._read_zero("memory")
            case Form.TYPED_SELECT:
                self._read_typed_select()
            case Form.PREFIXED:
                self._read_prefixed()
            case Form.REFUSED:
                raise Refusal(forms.reason(opcode))
            case _:
                self._read_float(form, opcode)

    def _read_float(self, form: Form, opcode: int) -> None:
        """An instruction on floats."""
        match form:
            case Form.FLOAT_ACCESS:
                word, access = floats.ACCESSES[opcode]
                self._read_access()
                self._replace(bytes([access]) + self._reader.data[self.at + 1:self._reader.at])
            case Form.FLOAT_CONSTANT:
                word, constant = floats.constant(self._reader, opcode)
                self._replace(constant)
            case Form.REINTERPRET:
                word = floats.REINTERPRETS[opcode]
                self._replace(floats.NOP)
            case _:
                word = floats.OPERATIONS[opcode]
                self._replace(self._edits.operation(word))
        self._edits.note(word)

    def _note_type(self, kind: int, before: bytes) -> None:
        """Replaces a type of floats, which is the byte after `before`."""
        if kind in floats.TYPES:
            self._edits.note(f"type {floats.TYPES[kind]}")
            self._replace(before + bytes([floats.INTEGERS[kind]]))

    def _read_access(self) -> None:
        if u32(self._reader) >= 0x40:
            raise Refusal("an access names a memory; several memories are not lowered")
        begin = self._reader.at
        if self._reader.unsigned() >= MOST or self._reader.at - begin > 5:
            raise Refusal("an offset has more than 32 bits; memories of 64 bits are not lowered")

    def _read_zero(self, what: str, found: bytes | None = None) -> None:
        """The index of the only table or memory, in one byte. If an instruction was found, it takes the place of all."""
        begin = self._reader.at
        if u32(self._reader) != 0:
            raise Refusal(f"{what} {self._reader.data[begin]} is named; several of them are not lowered")
        if self._reader.at > begin + 1:
            self._edits.note(f"long index of a {what}")
            found = found or self._reader.data[self.at:begin] + b"\0"
        if found is not None:
            self._replace(found)

    def _read_typed_select(self) -> None:
        if u32(self._reader) != 1:
            raise Refusal("a select has one type")
        value_type(self._reader)
        self._edits.note("select with a type")
        self._replace(b"\x1b")

    def _read_prefixed(self) -> None:
        """What follows 0xfc: a truncation that saturates, or an instruction on a range of memory."""
        number, segment = u32(self._reader), 0
        if number in floats.SATURATIONS:
            self._replace(self._edits.operation(floats.SATURATIONS[number]))
            self._edits.note(floats.SATURATIONS[number])
            return
        if not forms.MEMORY_INIT <= number <= forms.MEMORY_FILL:
            raise Refusal(forms.reason_of_prefixed(number))
        if number in (forms.MEMORY_INIT, forms.DATA_DROP):
            segment = u32(self._reader)
        for _ in range({forms.MEMORY_COPY: 2, forms.DATA_DROP: 0}.get(number, 1)):
            if u32(self._reader) != 0:
                raise Refusal("several memories are not lowered")
        self._replace(self._edits.bulk(number, segment))

    def _replace(self, instruction: bytes) -> None:
        """Puts an instruction in the place of the one that was read."""
        self._out += self._reader.data[self._kept:self.at] + instruction
        self._kept = self._reader.at


def block_type(reader: Reader) -> int:
    """The byte of nothing, of a value type, or in front of the index of a type."""
    kind = reader.data[reader.at] if not reader.is_at_end() else 0
    if reader.signed() >= 0 or kind == 0x40 or kind in op.TYPES or kind in floats.TYPES:
        return kind
    raise Refusal(forms.reason_of_type(kind))
