"""What places of a module are called, and which places a user's words name."""
from __future__ import annotations

from collections.abc import Callable
from pathlib import Path

from feulgama.debug import c_types
from feulgama.debug.c_types import CType
from feulgama.debug.c_variables import Found
from feulgama.debug.demangle import demangled
from feulgama.debug.dwarf import FAULTS, lines_of, variables_of, why_no_lines
from feulgama.debug.lines import Lines, Sources, SourceLine
from feulgama.debug.look import Place
from feulgama.debug.numbers import number_of
from feulgama.errors import FeulgamaError
from feulgama.model import Frame, Value
from feulgama.wasm.body import Instruction
from feulgama.wasm.calls import Shown, calls_of
from feulgama.wasm.module import Module
from feulgama.wasm.names import names_of


class NoPlaceError(FeulgamaError):
    """Words that name no place."""


def typed_text(value: Value, kind: CType | None) -> str:
    """A value with its type, or with a type of floats that it had in the module as it was compiled."""
    return str(value) if kind is None else f"{kind.name}:{kind.text(value.data(), lambda _address, _size: b'')}"


class Symbols:
    """The names and the lines of a module. `folders` are where its source files may be."""

    def __init__(self, module: Module, folders: list[Path]) -> None:
        self.module = module
        self.names = names_of(module)
        self.names.demangle(demangled(self.names.functions.values()))
        self.lines = lines_of(module)
        self._variables = variables_of(module)
        self._calls: dict[int, dict[Shown, list[int]]] = {}
        self.sources = Sources(folders)

    def instruction(self, place: Place) -> Instruction:
        """The instruction at a place. Raises NoPlaceError if there is none."""
        found = self.module.instruction(*place)
        if found is None:
            raise NoPlaceError(f"there is no instruction {place}")
        return found

    def float_local(self, func: int, index: int) -> CType | None:
        """The type of a local that is a float in the module as it was compiled; None of an integer."""
        function = self.module.function(func)
        kind = function.locals[index] if function is not None and index < len(function.locals) else ""
        return c_types.REALS.get(kind)

    def line_at(self, place: Place) -> SourceLine | None:
        """The line of a place; None if it has none."""
        return self.lines.at(place) if self.lines is not None else None

    def call_of(self, frame: Frame) -> Place:
        """The call that a frame waits for. Of two that cannot be told apart, the last ones of the two arms of an `if`,
        it is the second."""
        if frame.func not in self._calls:
            function = self.module.function(frame.func)
            self._calls[frame.func] = calls_of(function.instructions) if function is not None else {}
        places = self._calls[frame.func].get((frame.labels, frame.next))
        if not places:
            raise NoPlaceError(f"function {frame.func} has no call before {frame.next}")
        return Place(frame.func, places[-1])

    def variables(self, frame: Frame | None, place: Place | None, memory: Callable[[int, int], bytes],
                  wanted: str | None = None) -> list[Found]:
        """The variables of C of a frame that is at a place, and those of all functions beside it; without a frame those
        of all functions of the module. None without descriptions, or if these have a fault. If a name is wanted the
        others are left out."""
        if self._variables is None:
            return []
        try:
            if frame is None or place is None:
                return sorted(self._variables.globals(memory, None, wanted), key=lambda found: found.name)
            is_early = self.lines is not None and self.lines.is_in_prologue(place)
            return self._variables.found(frame, self.instruction(place).offset, memory, is_early, wanted)
        except FAULTS:
            return []

    def returned(self, func: int, frame: Frame, memory: Callable[[int, int], bytes]) -> list[str]:
        """What a function has returned to a frame: its results, the last operands there; by the type of the source, if it
        has one that is a number."""
        function = self.module.function(func)
        count = len(function.type.results) if function is not None else 0
        if function is None or count == 0:
            return []
        values = frame.operands[len(frame.operands) - count:]
        shown = [typed_text(value, c_types.REALS.get(word)) for value, word in zip(values, function.type.results)]
        if self._variables is None or count != 1:
            return shown
        try:
            kind = self._variables.type_of_function(function.begin)
        except FAULTS:
            kind = None
        data = values[0].number.to_bytes(8, "little", signed=True)[:kind.size] if kind is not None else b""
        has_text = kind is not None and (isinstance(kind, c_types.Float) or kind.number(data) is not None)
        return [f"{kind.name} {kind.text(data, memory)}"] if kind is not None and has_text else shown

    def type_named(self, name: str) -> CType | None:
        """The type with a name, as `unsigned int`, `u8` or `struct counts`; None if there is none."""
        found = c_types.built_in(name)
        if found is not None or self._variables is None:
            return found
        try:
            return self._variables.type_named(name)
        except FAULTS:
            return None

    def has_variables(self) -> bool:
        """Whether the module describes variables of C."""
        return self._variables is not None

    def why_no_lines(self) -> str:
        """Why there are no lines; nothing if there are."""
        return "" if self.lines is not None else why_no_lines(self.module)

    def why_no_variables(self) -> str:
        """Why there are no variables of C."""
        if self._variables is not None:
            return "no variables of C are described here"
        return why_no_lines(self.module)

    def told(self, place: Place) -> str:
        """A place with the name of its function and its line: `1:3 <main> main.c:12`."""
        source = self.line_at(place)
        return f"{place} <{self.names.function(place.func)}>{f' {source}' if source is not None else ''}"

    def places(self, words: str, is_stop: bool = False) -> tuple[list[Place], str]:
        """The places that `FUNC`, `FUNC:PLACE` or `FILE:LINE` names, FUNC a name or an index; and a remark, if the
        line is another than the one asked for. FUNC is its first instruction, or if a run is to stop there the one after
        its prologue, where the parameters have their values. Raises NoPlaceError if there are none."""
        head, colon, tail = words.rpartition(":")
        number = number_of(tail)
        if colon and number is not None:
            files = self.lines.files_named(head) if self.lines is not None else []
            if self.lines is not None and files:
                return at_line(self.lines, files, number)
            return [self._checked(Place(func, number)) for func in self.functions(head)], ""
        places = [self._checked(Place(func, 0)) for func in self.functions(words)]
        return [self.after_prologue(place) if is_stop else place for place in places], ""

    def after_prologue(self, place: Place) -> Place:
        """The instruction of a function that follows its prologue, if that is known."""
        function = self.module.function(place.func)
        return place if self.lines is None or function is None else self.lines.after_prologue(function)

    def functions(self, word: str) -> list[int]:
        """The functions of a name or an index. Raises NoPlaceError if there are none."""
        number = number_of(word)
        if number is not None:
            return [number]
        found = self.names.named(word.removeprefix("$"))
        if not found:
            told = f"there is no function and no source file named {word}"
            raise NoPlaceError(told if self.lines is not None else f"{told}; {why_no_lines(self.module)}")
        return found

    def _checked(self, place: Place) -> Place:
        if place.func < len(self.module.imports):
            raise NoPlaceError(f"function {place.func} is an import, and has no instructions")
        self.instruction(place)
        return place


def at_line(lines: Lines, files: list[str], line: int) -> tuple[list[Place], str]:
    """The places of a line in these files, and a remark if it is another line that has them."""
    found: list[Place] = []
    told = line
    for file in files:
        told, places = lines.breakable(file, line)
        found += places
    if not found:
        raise NoPlaceError(f"there is no statement from line {line} on in {files[0]}")
    return found, "" if told == line else f"line {line} has no statement; the next one is at line {told}"
