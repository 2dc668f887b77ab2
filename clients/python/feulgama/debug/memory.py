"""Memory as text: the command `x` and its formats."""
from __future__ import annotations

import re
from collections.abc import Callable, Iterator
from dataclasses import dataclass

from feulgama.debug.numbers import number_of
from feulgama.errors import FeulgamaError

SIZES = {"b": 1, "h": 2, "w": 4, "g": 8}
ROW = 16


class BadFormatError(FeulgamaError):
    """A format that there is not."""


@dataclass(frozen=True, slots=True)
class Format:
    """How memory is shown: `count` items of `size` bytes, each as `letter` says: x hexadecimal, d signed, u unsigned,
    c a character, s a text that ends with a NUL."""
    count: int = 1
    letter: str = "x"
    size: int = 4


def format_of(text: str) -> Format:
    """The format that a text names, as `4xw`: a count, a letter and a size (b, h, w or g), each of which may be
    missing."""
    match = re.fullmatch(r"(\d*)([xducs]?)([bhwg]?)|(\d*)([bhwg])([xducs])", text)
    if match is None:
        raise BadFormatError(f"{text} is no format: a count, one of x d u c s, and one of b h w g")
    count, letter, size = match.group(1, 2, 3) if match[5] is None else match.group(4, 6, 5)
    number = number_of(count or "1")
    if number is None:
        raise BadFormatError(f"{count} is too large a count")
    letter = letter or "x"
    return Format(number, letter, SIZES[size] if size else 1 if letter in "cs" else 4)


def dump(form: Format, address: int, memory: Callable[[int, int], bytes]) -> Iterator[str]:
    """Lines that show memory from an address on. Where it ends, the last line says so."""
    if form.letter == "s":
        yield from strings(form.count, address, memory)
        return
    data = memory(address, form.count * form.size)
    items = [data[at:at + form.size] for at in range(0, len(data) - form.size + 1, form.size)]
    across = max(1, ROW // form.size)
    for at in range(0, len(items), across):
        yield f"{address + at * form.size:#010x}: {' '.join(shown(form, item) for item in items[at:at + across])}"
    if len(items) < form.count:
        yield f"{address + len(items) * form.size:#010x}: no memory"


def shown(form: Format, item: bytes) -> str:
    """One item."""
    match form.letter:
        case "d":
            return str(int.from_bytes(item, "little", signed=True))
        case "u":
            return str(int.from_bytes(item, "little"))
        case "c":
            return ascii(chr(item[0]))
        case _:
            return f"{int.from_bytes(item, 'little'):#0{2 * form.size + 2}x}"


def strings(count: int, address: int, memory: Callable[[int, int], bytes]) -> Iterator[str]:
    """Texts that end with a NUL, one after the other, in parts of up to 200 bytes. Where memory ends, the last line says
    so."""
    for _ in range(count):
        data = memory(address, 200)
        if not data:
            yield f"{address:#010x}: no memory"
            return
        text, end, _ = data.partition(b"\0")
        rest = "" if end else "..."
        yield f"{address:#010x}: {ascii(text.decode('latin-1'))}{rest}"
        address += len(text) + len(end)
