"""The custom section `name`, of a module whose functions have moved."""
from __future__ import annotations

from collections.abc import Callable, Mapping

from feulgama.lowering.body import u32
from feulgama.lowering.errors import Refusal
from feulgama.wasm import writer as w
from feulgama.wasm.reader import NotAModuleError, Reader

FUNCTIONS, SEGMENTS = 1, 9


def renamed(data: bytes, moved: Callable[[int], int], added: Mapping[int, str]) -> bytes | None:
    """The contents after the section's name, with the functions at their indices and names of the added ones. The names of
    segments are left out. None if the section has a fault: it means nothing then."""
    reader, found = Reader(data), b""
    try:
        while not reader.is_at_end():
            number, begin = reader.byte(), reader.at
            part = reader.part()
            if number == FUNCTIONS:
                contents = function_names(part, moved, added)
                found += bytes([number]) + w.sized(contents)
            elif number != SEGMENTS:
                found += bytes([number]) + data[begin:reader.at]
    except (NotAModuleError, Refusal):
        return None
    return found


def function_names(part: Reader, moved: Callable[[int], int], added: Mapping[int, str]) -> bytes:
    """The names of functions, ordered by index."""
    names: dict[int, bytes] = {}
    for _ in range(u32(part)):
        index = moved(u32(part))
        names[index] = part.take(u32(part))
    for index, name in added.items():
        names.setdefault(index, name.encode())
    return w.vector([w.unsigned(index) + w.sized(names[index]) for index in sorted(names)])
