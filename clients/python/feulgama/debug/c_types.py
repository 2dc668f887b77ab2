"""Types of C, C++ and Rust as DWARF describes them, and the texts of their values."""
from __future__ import annotations

import math
import struct
from collections.abc import Callable
from dataclasses import dataclass, field

Memory = Callable[[int, int], bytes]
MOST_SHOWN = 16
DEEPEST = 3
LONGEST_TEXT = 64
FLOATS = {4: "<f", 8: "<d"}


@dataclass(frozen=True, slots=True)
class CType:
    """A type: its name and the number of its bytes."""
    name: str
    size: int

    def number(self, _data: bytes) -> int | None:
        """The number that bytes mean; None if the type has no numbers."""
        return None

    def text(self, data: bytes, _memory: Memory, _depth: int = 0) -> str:
        """The value that bytes mean. Texts that it points at are read from memory."""
        found = self.number(data)
        return data.hex(" ") if found is None else str(found)


@dataclass(frozen=True, slots=True)
class Number(CType):
    """A whole number, a truth value or a character."""
    is_signed: bool
    is_character: bool = False
    is_truth: bool = False

    def number(self, data: bytes) -> int | None:
        return int.from_bytes(data, "little", signed=self.is_signed)

    def text(self, data: bytes, _memory: Memory, _depth: int = 0) -> str:
        found = int.from_bytes(data, "little", signed=self.is_signed)
        if self.is_truth and found in (0, 1):
            return "true" if found else "false"
        if not self.is_character or not data:
            return str(found)
        code = int.from_bytes(data, "little")
        return f"{found} {ascii(chr(code))}" if code < 0x110000 else str(found)


@dataclass(frozen=True, slots=True)
class Float(CType):
    """A number with a fraction, of 4 or 8 bytes."""

    def real(self, data: bytes) -> float | None:
        """The number that bytes mean; None if they have another size."""
        form = FLOATS.get(len(data))
        return None if form is None else float(struct.unpack(form, data)[0])

    def encoded(self, number: float) -> bytes:
        """The bytes of a number; one that is too large becomes infinite."""
        form = FLOATS.get(self.size, "<d")
        try:
            return struct.pack(form, number)
        except OverflowError:
            return struct.pack(form, math.copysign(math.inf, number))

    def text(self, data: bytes, _memory: Memory, _depth: int = 0) -> str:
        """The fewest digits that mean the same bytes."""
        found = self.real(data)
        if found is None:
            return data.hex(" ")
        if len(data) == 8 or not math.isfinite(found):
            return repr(found)
        digits = (float(f"{found:.{count}g}") for count in range(6, 10))
        return repr(next(one for one in digits if self.encoded(one) == data))


@dataclass(frozen=True, slots=True)
class Pointer(CType):
    """An address of something of a type."""
    to: Callable[[], CType] = field(compare=False)

    def number(self, data: bytes) -> int | None:
        return int.from_bytes(data, "little")

    def text(self, data: bytes, memory: Memory, _depth: int = 0) -> str:
        address = int.from_bytes(data, "little")
        target = self.to()
        if not (isinstance(target, Number) and target.is_character and target.size == 1 and address):
            return f"{address:#x}"
        found, end, _ = memory(address, LONGEST_TEXT).partition(b"\0")
        return f"{address:#x} {quoted(found)}{'' if end else '...'}"


@dataclass(frozen=True, slots=True)
class Enumeration(CType):
    """A number with names."""
    names: tuple[tuple[int, str], ...]
    is_signed: bool = True

    def number(self, data: bytes) -> int | None:
        return int.from_bytes(data, "little", signed=self.is_signed)

    def text(self, data: bytes, _memory: Memory, _depth: int = 0) -> str:
        found = int.from_bytes(data, "little", signed=self.is_signed)
        return dict(self.names).get(found, str(found))


@dataclass(frozen=True, slots=True)
class Array(CType):
    """Items of one type; of characters it is shown as a text up to the first NUL."""
    item: CType
    count: int

    def text(self, data: bytes, memory: Memory, depth: int = 0) -> str:
        if isinstance(self.item, Number) and self.item.is_character and self.item.size == 1:
            return quoted(data.split(b"\0")[0])
        size = self.item.size
        if depth >= DEEPEST or size == 0:
            return "[...]"
        items = [self.item.text(data[at:at + size], memory, depth + 1)
                 for at in range(0, len(data) - size + 1, size)][:MOST_SHOWN + 1]
        more = ", ..." if self.count > MOST_SHOWN else ""
        return f"[{', '.join(items[:MOST_SHOWN])}{more}]"


@dataclass(frozen=True, slots=True)
class Member:
    """A member of a structure: its name, its offset and its type; of a bit field also how many bits it has, and where
    they begin, counted from the least bit of the structure."""
    name: str
    offset: int
    type: CType
    bits: int = 0
    first_bit: int = 0

    def data(self, whole: bytes) -> bytes:
        """Its bytes, in those of the structure."""
        if not self.bits:
            return whole[self.offset:self.offset + self.type.size]
        number = int.from_bytes(whole, "little") >> self.first_bit & (1 << self.bits) - 1
        if isinstance(self.type, (Number, Enumeration)) and self.type.is_signed and number >> self.bits - 1:
            number -= 1 << self.bits
        return (number % (1 << 8 * self.type.size)).to_bytes(self.type.size, "little")


@dataclass(frozen=True, slots=True)
class Structure(CType):
    """Members, each with its name, its offset and its type; also those of a union, and of a tuple of Rust."""
    members: tuple[Member, ...]

    def text(self, data: bytes, memory: Memory, depth: int = 0) -> str:
        slice_ = self._slice(data, memory)
        if slice_ is not None:
            return slice_
        if depth >= DEEPEST:
            return "{...}"
        shown = (f"{member.name} = {member.type.text(member.data(data), memory, depth + 1)}" for member in self.members)
        return f"{{{', '.join(shown)}}}"

    def _slice(self, data: bytes, memory: Memory) -> str | None:
        """The text of a `&str` of Rust; None of another type."""
        if self.name != "&str" or [member.name for member in self.members] != ["data_ptr", "length"]:
            return None
        address, length = (int.from_bytes(member.data(data), "little") for member in self.members)
        found = memory(address, min(length, LONGEST_TEXT))
        return quoted(found, "utf-8") + ("..." if length > len(found) else "")


@dataclass(frozen=True, slots=True)
class Variants(CType):
    """An `enum` of Rust: which of its variants is there is said by a number; a variant with None is there for all other
    numbers. A variant has its name, its offset and its type."""
    tag: Member | None
    variants: tuple[tuple[int | None, Member], ...]

    def chosen(self, data: bytes) -> Member | None:
        """The variant that is there."""
        found = int.from_bytes(self.tag.data(data), "little") if self.tag is not None else None
        other = None
        for number, variant in self.variants:
            if number is None or self.tag is None:
                other = variant
            elif found == number % (1 << 8 * self.tag.type.size):
                return variant
        return other

    def text(self, data: bytes, memory: Memory, depth: int = 0) -> str:
        chosen = self.chosen(data)
        if chosen is None:
            return data.hex(" ")
        if isinstance(chosen.type, Structure) and not chosen.type.members:
            return chosen.name
        return f"{chosen.name} {chosen.type.text(chosen.data(data), memory, depth + 1)}"


NUMBERS = {"char": (1, True), "signed char": (1, True), "unsigned char": (1, False), "short": (2, True),
           "unsigned short": (2, False), "int": (4, True), "unsigned int": (4, False), "unsigned": (4, False),
           "long": (4, True), "unsigned long": (4, False), "long long": (8, True), "unsigned long long": (8, False),
           **{f"{letter}{bits}": (bits // 8, letter == "i") for letter in "iu" for bits in (8, 16, 32, 64)}}


REALS = {name: Float(name, size) for name, size in (("float", 4), ("f32", 4), ("double", 8), ("f64", 8))}


def built_in(name: str) -> CType | None:
    """The number type of a name that needs no description; None if it is none."""
    if name in REALS:
        return REALS[name]
    if name not in NUMBERS:
        return CType(name, 0) if name == "void" else None
    size, is_signed = NUMBERS[name]
    return Number(name, size, is_signed, is_character=name.endswith("char"))


def members_of(kind: CType | None, data: bytes) -> tuple[Member, ...]:
    """The members of a structure; of an `enum` of Rust those of the variant that is there."""
    if isinstance(kind, Structure):
        return kind.members
    chosen = kind.chosen(data) if isinstance(kind, Variants) else None
    if chosen is None or not isinstance(chosen.type, Structure):
        return ()
    return tuple(Member(one.name, one.offset + chosen.offset, one.type, one.bits, one.first_bit + 8 * chosen.offset)
                 for one in chosen.type.members)


def quoted(data: bytes, encoding: str = "latin-1") -> str:
    """Bytes as a text in quotation marks."""
    return ascii(data.decode(encoding, "replace"))
