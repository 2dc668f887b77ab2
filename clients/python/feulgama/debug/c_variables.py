"""Variables of C, C++ and Rust: where DWARF says that they are, and what they are at a place of a run."""
from __future__ import annotations

from collections.abc import Iterator
from dataclasses import dataclass, field
from typing import Any

from feulgama.debug.c_types import CType, Memory
from feulgama.debug.descriptions import Types, expression_at, holding, name_of, ranges_of
from feulgama.debug.location import OPTIMIZED_OUT, Context, NotThereError, locate
from feulgama.model import Frame

SCOPES = ("DW_TAG_lexical_block", "DW_TAG_inlined_subroutine", "DW_TAG_try_block", "DW_TAG_catch_block")
VARIABLES = ("DW_TAG_variable", "DW_TAG_formal_parameter")
OUTER = ("DW_TAG_namespace", "DW_TAG_module", "DW_TAG_structure_type", "DW_TAG_union_type", "DW_TAG_class_type",
         "DW_TAG_enumeration_type")
LONGEST_VALUE, SLACK = 4096, 4
WORDS = {"struct": "structure", "enum": "enumeration"}
LEFT_OUT = b"\3\xff\xff\xff\xff"
Range = tuple[int, int]


@dataclass(frozen=True, slots=True)
class Found:
    """A variable in a frame, or of all functions if `is_global` is set: the text of its value, its number if it has one,
    its address if it is in memory, and its bytes. Without a value the text says why, and `data` is None."""
    name: str
    type: str
    text: str
    number: int | None
    address: int | None
    kind: CType = field(compare=False)
    data: bytes | None = None
    is_parameter: bool = False
    is_global: bool = False


@dataclass(frozen=True, slots=True)
class Function:
    """A function: its entry, and where in the code it is."""
    die: Any
    ranges: list[Range]


class Unit:
    """A unit of the descriptions. What is in it is read when it is needed."""

    def __init__(self, die: Any, dwarf: Any) -> None:
        self._die, self._dwarf = die, dwarf
        self.ranges = ranges_of(die, dwarf)
        self._functions: list[Function] | None = None
        self._globals: list[tuple[str, Any]] = []
        self._named_types: list[Any] = []

    def functions(self) -> list[Function]:
        """Its functions that are in the code."""
        if self._functions is None:
            self._functions = []
            self._read(self._die, "")
        return self._functions

    def globals(self) -> list[tuple[str, Any]]:
        """Its variables that are in no function, with their names."""
        self.functions()
        return self._globals

    def types(self) -> list[Any]:
        """Its types that have names."""
        self.functions()
        return self._named_types

    def _read(self, die: Any, outer: str) -> None:
        for child in die.iter_children():
            if child.tag.endswith(("_type", "_typedef")) and "DW_AT_name" in child.attributes:
                if "DW_AT_declaration" not in child.attributes:
                    self._named_types.append(child)
            if child.tag in OUTER and child.has_children:
                self._read(child, f"{outer}{name_of(child)}::")
            elif child.tag == "DW_TAG_subprogram" and (ranges := ranges_of(child, self._dwarf)):
                self._functions = [*(self._functions or []), Function(child, ranges)]
            elif child.tag == "DW_TAG_variable" and is_kept(child):
                name = name_of(child)
                if name != "?" and not name.endswith("{vtable}"):
                    self._globals.append((outer_of(child, outer) + name, child))


class Variables:
    """The variables of a module."""

    def __init__(self, dwarf: Any) -> None:
        self._dwarf, self._types = dwarf, Types()
        self._units = [Unit(unit.get_top_DIE(), dwarf) for unit in dwarf.iter_CUs()]

    def found(self, frame: Frame, offset: int, memory: Memory, is_early: bool = False,
              wanted: str | None = None) -> list[Found]:
        """The variables of a frame at an offset of the code, the parameters first, and then those of all functions of
        the same unit; of two with one name the inner one. `is_early` says that the offset is in a prologue. If a name is
        wanted the others are left out."""
        units = [unit for unit in self._units if within(unit.ranges, offset)]
        by_name = {found.name: found for found in self.globals(memory, units, wanted)}
        by_name |= {found.name: found for found in self.of_frame(frame, offset, memory, is_early, wanted)}
        return sorted(by_name.values(), key=lambda found: (found.is_global, not found.is_parameter, found.name))

    def of_frame(self, frame: Frame, offset: int, memory: Memory, is_early: bool,
                 wanted: str | None = None) -> Iterator[Found]:
        """The variables of a frame, those of outer scopes first."""
        for unit in self._units:
            if within(unit.ranges, offset):
                for function in unit.functions():
                    if within(function.ranges, offset):
                        base = expression_at(function.die, "DW_AT_frame_base", offset, self._dwarf)
                        context = Context(frame, memory, address_of(function.die.cu, self._dwarf), base, is_early)
                        yield from self._inside(function.die, offset, context, wanted)
                        return

    def type_of_function(self, offset: int) -> CType | None:
        """The type of what the function that begins at an offset of the code, or soon after it, returns."""
        for unit in self._units:
            for function in unit.functions() if within(unit.ranges, offset) or within(unit.ranges, offset + SLACK) else ():
                if within(function.ranges, offset) or within(function.ranges, offset + SLACK):
                    return self._types.of(function.die)
        return None

    def type_named(self, name: str) -> CType | None:
        """The type with a name, or with a word as `struct` before it."""
        word, _, rest = name.rpartition(" ")
        for unit in self._units:
            for die in unit.types():
                if name_of(die) == rest and (not word or die.tag.startswith(f"DW_TAG_{WORDS.get(word, word)}")):
                    return self._types.described(die)
        return None

    def _inside(self, die: Any, offset: int, context: Context, wanted: str | None) -> Iterator[Found]:
        scopes = []
        for child in die.iter_children():
            if child.tag in VARIABLES:
                if holding(child, "DW_AT_name") is not None and wanted in (None, name_of(child)):
                    yield self._value(name_of(child), child, offset, context, die.tag == "DW_TAG_subprogram")
            elif child.tag in SCOPES:
                scopes.append(child)
        for scope in scopes:
            ranges = ranges_of(scope, self._dwarf)
            if not ranges and scope.tag == "DW_TAG_lexical_block" or within(ranges, offset):
                yield from self._inside(scope, offset, context, wanted)

    def globals(self, memory: Memory, units: list[Unit] | None = None, wanted: str | None = None) -> Iterator[Found]:
        """The variables of all functions, of these units or of all; of one name alone if that is wanted, or of which it is
        the last part."""
        for unit in self._units if units is None else units:
            for name, die in unit.globals():
                if wanted is not None and wanted != name and not name.endswith("::" + wanted):
                    continue
                context = Context(None, memory, address_of(die.cu, self._dwarf))
                yield self._value(name, die, 0, context, False, is_global=True)

    def _value(self, name: str, die: Any, offset: int, context: Context, may_be_parameter: bool, *,
               is_global: bool = False) -> Found:
        """A variable, or why it has no value."""
        kind = self._types.of(die)
        is_parameter = may_be_parameter and die.tag == "DW_TAG_formal_parameter"
        size = min(kind.size, LONGEST_VALUE)
        address = None
        try:
            constant = constant_of(die, size)
            if constant is None:
                expression = expression_at(die, "DW_AT_location", offset, self._dwarf)
                if expression is None:
                    raise NotThereError(OPTIMIZED_OUT)
                where = locate(expression, size, context)
                address = where.address
                constant = where.bytes_of(size, context.memory)
        except NotThereError as why:
            return Found(name, kind.name, f"({why})", None, address, kind, None, is_parameter, is_global)
        return Found(name, kind.name, kind.text(constant, context.memory), kind.number(constant), address, kind, constant,
                     is_parameter, is_global)


def within(ranges: list[Range], offset: int) -> bool:
    """Whether an offset is in one of these ranges."""
    return any(begin <= offset < end for begin, end in ranges)


def is_kept(die: Any) -> bool:
    """Whether a variable of all functions is in the module: the linker gives one that it leaves out no address."""
    attribute = die.attributes.get("DW_AT_location")
    return attribute is not None and bytes(attribute.value)[:len(LEFT_OUT)] != LEFT_OUT


def constant_of(die: Any, size: int) -> bytes | None:
    """The bytes of a variable that is a constant; None of another one."""
    attribute = die.attributes.get("DW_AT_const_value")
    if attribute is None:
        return None
    if isinstance(attribute.value, int):
        return (attribute.value % (1 << 8 * size)).to_bytes(size, "little")
    return bytes(attribute.value).ljust(size, b"\0")[:size]


def outer_of(die: Any, outer: str) -> str:
    """What is before the name of a variable: the names of what it is declared in."""
    return outer if "DW_AT_specification" not in die.attributes else ""


def address_of(unit: Any, dwarf: Any) -> Any:
    """What tells the addresses of a unit by their index."""
    return lambda index: dwarf.get_addr(unit, index)
