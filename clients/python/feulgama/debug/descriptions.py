"""What DWARF describes: types, names, ranges and locations of its entries, as pyelftools reads them."""
from __future__ import annotations

from collections.abc import Iterator
from typing import Any

from feulgama.debug import c_types
from feulgama.debug.c_types import CType, Member

SIGNED, CHARACTERS, TRUTH, FLOAT = (0x05, 0x06, 0x0D), (0x06, 0x08, 0x10), 0x02, 0x04
PASSED_OVER = ("DW_TAG_typedef", "DW_TAG_const_type", "DW_TAG_volatile_type", "DW_TAG_restrict_type",
               "DW_TAG_atomic_type")
POINTERS = {"DW_TAG_pointer_type": " *", "DW_TAG_reference_type": " &", "DW_TAG_rvalue_reference_type": " &&"}
STRUCTURES = {"DW_TAG_structure_type": "struct ", "DW_TAG_union_type": "union ", "DW_TAG_class_type": ""}
ORIGINS = ("DW_AT_abstract_origin", "DW_AT_specification")
POINTER_SIZE = 4
LONGEST_WAY = 8


class Types:
    """The types of a module's descriptions."""

    def __init__(self) -> None:
        self._found: dict[int, CType] = {}

    def of(self, die: Any) -> CType:
        """The type of what an entry describes."""
        holder = holding(die, "DW_AT_type")
        return CType("void", 0) if holder is None else self.described(holder.get_DIE_from_attribute("DW_AT_type"))

    def described(self, die: Any) -> CType:
        """The type that an entry describes."""
        if die.offset not in self._found:
            self._found[die.offset] = CType(name_of(die), number_at(die, "DW_AT_byte_size"))
            self._found[die.offset] = self._read(die)
        return self._found[die.offset]

    def _read(self, die: Any) -> CType:
        name, size = name_of(die), number_at(die, "DW_AT_byte_size")
        if die.tag == "DW_TAG_base_type":
            encoding = number_at(die, "DW_AT_encoding")
            if encoding == FLOAT:
                return c_types.Float(name, size)
            return c_types.Number(name, size, encoding in SIGNED, encoding in CHARACTERS, encoding == TRUTH)
        if die.tag in POINTERS:
            return self._pointer(die, name)
        if die.tag == "DW_TAG_array_type":
            return self._array(die)
        if die.tag in STRUCTURES:
            return self._structure(die, name, size)
        if die.tag == "DW_TAG_enumeration_type":
            return self._enumeration(die, name, size)
        return self.of(die) if die.tag in PASSED_OVER else CType(name, size)

    def _pointer(self, die: Any, name: str) -> CType:
        told = name if name != "?" else f"{self._name_of_target(die)}{POINTERS[die.tag]}"
        return c_types.Pointer(told, POINTER_SIZE, lambda: self.of(die))

    def _name_of_target(self, die: Any) -> str:
        """The name of what is pointed at, without reading its members: it may have a pointer to itself."""
        if "DW_AT_type" not in die.attributes:
            return "void"
        target = die.get_DIE_from_attribute("DW_AT_type")
        while target.tag in PASSED_OVER and "DW_AT_type" in target.attributes:
            target = target.get_DIE_from_attribute("DW_AT_type")
        return word_of(target) + name_of(target) if target.tag in STRUCTURES else self.described(target).name

    def _array(self, die: Any) -> CType:
        found = self.of(die)
        for part in reversed([part for part in die.iter_children() if part.tag == "DW_TAG_subrange_type"]):
            count = number_at(part, "DW_AT_count") if "DW_AT_count" in part.attributes else \
                number_at(part, "DW_AT_upper_bound") + 1 if "DW_AT_upper_bound" in part.attributes else 0
            head, bracket, rest = found.name.partition("[")
            found = c_types.Array(f"{head}[{count}]{bracket}{rest}", found.size * count, found, count)
        return found

    def _structure(self, die: Any, name: str, size: int) -> CType:
        parts = [part for part in die.iter_children() if part.tag == "DW_TAG_variant_part"]
        if parts:
            return self._variants(parts[0], name, size)
        return c_types.Structure(word_of(die) + name, size, tuple(self._members(die)))

    def _members(self, die: Any) -> Iterator[Member]:
        for member in die.iter_children():
            if member.tag in ("DW_TAG_member", "DW_TAG_inheritance") and "DW_AT_external" not in member.attributes:
                yield self._member(member)

    def _member(self, die: Any) -> Member:
        offset, bits, kind = number_at(die, "DW_AT_data_member_location"), number_at(die, "DW_AT_bit_size"), self.of(die)
        first = number_at(die, "DW_AT_data_bit_offset")
        if "DW_AT_bit_offset" in die.attributes:  # of DWARF 3: counted from the greatest bit of what it is stored in
            size = number_at(die, "DW_AT_byte_size") or kind.size
            first = 8 * (offset + size) - number_at(die, "DW_AT_bit_offset") - bits
        return Member(name_of(die), offset, kind, bits, first)

    def _variants(self, part: Any, name: str, size: int) -> CType:
        tag = part.get_DIE_from_attribute("DW_AT_discr") if "DW_AT_discr" in part.attributes else None
        found: list[tuple[int | None, Member]] = []
        for variant in part.iter_children():
            if variant.tag == "DW_TAG_variant":
                value = variant.attributes.get("DW_AT_discr_value")
                found += [(None if value is None else int(value.value), member) for member in self._members(variant)]
        return c_types.Variants(name, size, None if tag is None else self._member(tag), tuple(found))

    def _enumeration(self, die: Any, name: str, size: int) -> CType:
        names = tuple((number_at(one, "DW_AT_const_value"), name_of(one)) for one in die.iter_children()
                      if one.tag == "DW_TAG_enumerator")
        below = self.of(die)
        is_signed = below.is_signed if isinstance(below, c_types.Number) else True
        word = "enum " if is_c(die) else ""
        return c_types.Enumeration(f"{word}{name}", size, names, is_signed)


def is_c(die: Any) -> bool:
    """Whether an entry is of a unit of C, where names of structures have a word before them."""
    return number_at(die.cu.get_top_DIE(), "DW_AT_language") in (0x01, 0x02, 0x0C, 0x1D, 0x2C)


def word_of(die: Any) -> str:
    """What is before the name of a structure: in C its word."""
    return STRUCTURES[die.tag] if is_c(die) else ""


def holding(die: Any, key: str) -> Any:
    """The entry that has an attribute: this one, or one that it is an instance of; None if none has."""
    for _ in range(LONGEST_WAY):
        if key in die.attributes:
            return die
        origin = next((origin for origin in ORIGINS if origin in die.attributes), None)
        if origin is None:
            return None
        die = die.get_DIE_from_attribute(origin)
    return None


def name_of(die: Any) -> str:
    """The name of an entry; `?` of one without."""
    holder = holding(die, "DW_AT_name")
    return "?" if holder is None else str(holder.attributes["DW_AT_name"].value, errors="replace")


def number_at(die: Any, key: str) -> int:
    """A number of an entry; 0 if it has none."""
    attribute = die.attributes.get(key)
    return attribute.value if attribute is not None and isinstance(attribute.value, int) else 0


def ranges_of(die: Any, dwarf: Any) -> list[tuple[int, int]]:
    """From where and up to where in the code an entry is; none if it is not in the code."""
    attributes = die.attributes
    if "DW_AT_ranges" in attributes:
        return ranges_at(die, attributes["DW_AT_ranges"].value, dwarf)
    if "DW_AT_low_pc" not in attributes or "DW_AT_high_pc" not in attributes:
        return []
    low, high = attributes["DW_AT_low_pc"].value, attributes["DW_AT_high_pc"]
    return [(low, high.value if high.form == "DW_FORM_addr" else low + high.value)]


def ranges_at(die: Any, offset: int, dwarf: Any) -> list[tuple[int, int]]:
    """The ranges of a list of them."""
    lists, base = dwarf.range_lists(), number_at(die.cu.get_top_DIE(), "DW_AT_low_pc")
    found = []
    for entry in lists.get_range_list_at_offset(offset, cu=die.cu) if lists is not None else []:
        if hasattr(entry, "base_address"):
            base = entry.base_address
        else:
            begin = 0 if entry.is_absolute else base
            found.append((begin + entry.begin_offset, begin + entry.end_offset))
    return found


def expression_at(die: Any, key: str, offset: int, dwarf: Any) -> bytes | None:
    """The expression of an attribute that holds at an offset of the code; None if none does."""
    attribute = die.attributes.get(key)
    if attribute is None:
        return None
    if attribute.form == "DW_FORM_exprloc" or attribute.form.startswith("DW_FORM_block"):
        return bytes(attribute.value)
    lists, base = dwarf.location_lists(), number_at(die.cu.get_top_DIE(), "DW_AT_low_pc")
    other = None
    for entry in lists.get_location_list_at_offset(attribute.value, die) if lists is not None else []:
        if hasattr(entry, "base_address"):
            base = entry.base_address
        elif entry.begin_offset == entry.end_offset == -1:
            other = bytes(entry.loc_expr)
        else:
            begin = 0 if entry.is_absolute else base
            if begin + entry.begin_offset <= offset < begin + entry.end_offset:
                return bytes(entry.loc_expr)
    return other
