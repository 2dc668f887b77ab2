"""The sections of a module, before anything is replaced."""
from __future__ import annotations

from dataclasses import dataclass

from feulgama.lowering.errors import LoweringError
from feulgama.wasm.module import HEAD
from feulgama.wasm.reader import NotAModuleError, Reader

TYPE, IMPORT, FUNCTION, TABLE, MEMORY, GLOBAL, EXPORT, START, ELEMENT, CODE, DATA, DATA_COUNT, TAG = range(1, 14)
WORDS = ("custom", "type", "import", "function", "table", "memory", "global", "export", "start", "element", "code", "data",
         "data count", "tag")
# The order in which they are.
ORDER = (TYPE, IMPORT, FUNCTION, TABLE, MEMORY, TAG, GLOBAL, EXPORT, START, ELEMENT, DATA_COUNT, CODE, DATA)
RANK = {number: rank for rank, number in enumerate(ORDER)}
MOST_BYTES, MOST_WITHOUT_CUSTOMS = 2**26, 2**20


@dataclass(frozen=True, slots=True)
class Section:
    """A section: its number, the offset of its first byte, and those of its contents."""
    number: int
    first: int
    begin: int
    end: int


def sections_of(data: bytes) -> list[Section]:
    """The sections of a module, in their order. Raises LoweringError."""
    if len(data) > MOST_BYTES:
        raise LoweringError(f"the file has {len(data)} bytes, and at most {MOST_BYTES} are read")
    if data[:8] != HEAD:
        raise LoweringError("offset 0: " + ("a component is not lowered" if data[:4] == HEAD[:4] and data[6:8] == b"\1\0"
                                            else "the bytes do not begin as a module does"))
    reader, found, rank = Reader(data, 8), list[Section](), -1
    while not reader.is_at_end():
        first = reader.at
        try:
            number = reader.byte()
            part = reader.part()
        except NotAModuleError as error:
            raise LoweringError(f"offset {first}: {error}") from error
        if number == TAG:
            raise LoweringError(f"offset {first}: section 13 (tag): exceptions are not lowered")
        if number != 0:
            if number not in RANK or RANK[number] <= rank:
                raise LoweringError(f"offset {first}: section {number} cannot be there")
            rank = RANK[number]
        found.append(Section(number, first, part.at, part.end))
    size = sum(one.end - one.first for one in found if one.number != 0)
    if size > MOST_WITHOUT_CUSTOMS:
        raise LoweringError(f"the module has {size} bytes without its custom sections, and at most {MOST_WITHOUT_CUSTOMS} "
                            "are lowered; the shim takes 262144")
    return found
