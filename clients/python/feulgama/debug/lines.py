"""Lines of source files by the offsets of instructions."""
from __future__ import annotations

import bisect
import os
from collections.abc import Iterable
from dataclasses import dataclass
from pathlib import Path
from typing import NamedTuple

from feulgama.debug.look import Place
from feulgama.wasm.module import Function, Module

MOST_SOURCE = 1 << 24  # bytes of a source


class SourceLine(NamedTuple):
    """A line of a source file, counted from 1. `file` is the path that the module's line table has."""
    file: str
    line: int

    def __str__(self) -> str:
        return f"{Path(self.file).name}:{self.line}"


@dataclass(frozen=True, slots=True)
class Row:
    """A row of a line table: from `address` on, the instructions are of this line; of none if `source` is None.
    `is_statement` says that a statement begins here, `ends_prologue` that the parameters are where the descriptions of
    variables say."""
    address: int
    source: SourceLine | None
    is_statement: bool
    ends_prologue: bool = False


class Lines:
    """The line table of a module. Offsets are those of `Instruction.offset`."""

    def __init__(self, module: Module, rows: Iterable[Row]) -> None:
        self._module = module
        self._rows = sorted(rows, key=lambda row: row.address)
        self._addresses = [row.address for row in self._rows]
        self.files = sorted({row.source.file for row in self._rows if row.source is not None})

    def at(self, place: Place) -> SourceLine | None:
        """The line of an instruction; None if it has none."""
        instruction = self._module.instruction(*place)
        if instruction is None:
            return None
        at = bisect.bisect_right(self._addresses, instruction.offset) - 1
        return self._rows[at].source if at >= 0 else None

    def starts(self, file: str) -> dict[int, set[Place]]:
        """The places at which statements of a file begin, by their lines."""
        found: dict[int, set[Place]] = {}
        for row in self._rows:
            if row.source is not None and row.source.file == file and row.is_statement:
                place = self._place_from(row.address)
                if place is not None:
                    found.setdefault(row.source.line, set()).add(place)
        return found

    def breakable(self, file: str, line: int) -> tuple[int, list[Place]]:
        """The first line from one on that has a statement, and for each function the first place of it there. No
        places if there is no such line."""
        starts = self.starts(file)
        later = min((found for found in starts if found >= line), default=None)
        if later is None:
            return line, []
        first: dict[int, int] = {}
        for func, place in starts[later]:
            first[func] = min(place, first.get(func, place))
        return later, [Place(*both) for both in sorted(first.items())]

    def after_prologue(self, function: Function) -> Place:
        """Where a breakpoint at a function is: where the table says that its prologue ends, or at the second row of the
        function, as other debuggers have it; at its first instruction, if it has no such row."""
        first = bisect.bisect_left(self._addresses, function.begin)
        rows = self._rows[first:bisect.bisect_left(self._addresses, function.end)]
        later = [row for row in rows if row.address > rows[0].address and row.source is not None]
        ends = [row for row in rows if row.ends_prologue] or later
        place = first_from(function, ends[0].address) if ends else None
        return Place(function.index, 0) if place is None else place

    def is_in_prologue(self, place: Place) -> bool:
        """Whether a place is before the one at which the table says that its function's prologue ends."""
        function = self._module.function(place.func)
        if function is None:
            return False
        first = bisect.bisect_left(self._addresses, function.begin)
        rows = self._rows[first:bisect.bisect_left(self._addresses, function.end)]
        end = next((row.address for row in rows if row.ends_prologue), 0)
        return function.instructions[place.place].offset < end

    def files_named(self, name: str) -> list[str]:
        """The files of the table whose paths end with a name."""
        return [file for file in self.files if file == name or file.endswith("/" + name)]

    def _place_from(self, address: int) -> Place | None:
        """The first instruction from an offset on, in the function that has the offset."""
        for function in self._module.functions:
            if function.begin <= address < function.end:
                return first_from(function, address)
        return None


def first_from(function: Function, address: int) -> Place | None:
    """The first instruction of a function from an offset on."""
    at = bisect.bisect_left(function.instructions, address, key=lambda found: found.offset)
    return Place(function.index, at) if at < len(function.instructions) else None


class Sources:
    """The texts of source files, where they are there: under the path of the line table, or beside the module."""

    def __init__(self, folders: Iterable[Path]) -> None:
        self._folders = list(folders)
        self._texts: dict[str, list[str] | None] = {}

    def path(self, file: str) -> Path | None:
        """Where a file is; None if it is not there."""
        told = Path(file)
        beside = [folder / part for folder in self._folders for part in (told, Path(told.name))]
        return next((path for path in (*beside, told) if is_file(path)), None)

    def lines(self, file: str) -> list[str] | None:
        """The lines of a file; None if it is not there, cannot be read or is no source."""
        if file not in self._texts:
            path = self.path(file)
            text = None if path is None else text_of(path)
            self._texts[file] = None if text is None else text.splitlines()
        return self._texts[file]

    def line(self, source: SourceLine) -> str | None:
        """One line; None if it is not there."""
        lines = self.lines(source.file)
        return lines[source.line - 1] if lines is not None and 0 < source.line <= len(lines) else None


def is_file(path: Path) -> bool:
    """Whether a file is there, as far as that can be known."""
    try:
        return path.is_file()
    except OSError:  # it is in a folder of another user, or its name is too long
        return False


def text_of(path: Path) -> str | None:
    """The text of a source; None of a file that cannot be read, is very large, or tells no size, as those of /proc. A module
    that nobody trusts may name any file, also one without an end."""
    try:
        with path.open("rb") as file:
            size = os.fstat(file.fileno()).st_size
            return file.read(size).decode(errors="replace") if 0 < size <= MOST_SOURCE else None
    except OSError:
        return None
