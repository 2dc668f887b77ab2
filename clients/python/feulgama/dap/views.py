"""What an editor is shown of a run: sources, frames, variables, memory and instructions."""
from __future__ import annotations

import base64
import bisect
import re
from dataclasses import dataclass
from pathlib import Path
from typing import Any

from feulgama.debug.c_types import Array, CType, Pointer, members_of
from feulgama.debug.c_variables import LONGEST_VALUE, Found
from feulgama.debug.debugger import Debugger
from feulgama.debug.expressions import NoValueError, Operand, address, evaluate
from feulgama.debug.look import Place
from feulgama.model import Frame, Stream, Value
from feulgama.wasm.module import Function

Body = dict[str, Any]
FIRST_SOURCE = 1000
VARIABLES, LOCALS, OPERANDS, MEMORY = 1, 2, 3, 4
KINDS, FIRST_OPENED = 5, 1 << 20
MOST_ITEMS = 256
SIMPLE = re.compile(r"[\w:.\[\]]+")  # expressions that need no parentheses before a member


@dataclass(frozen=True, slots=True)
class Opened:
    """A value that an editor may open: its type, its bytes, where it is, and the words that name it."""
    kind: CType
    data: bytes
    address: int | None
    name: str


class Views:
    """Reads a debugger for an editor. Frames have their number from the innermost as id. The reference of a scope is
    KINDS times the frame's number and one of the kinds. A function's instructions are a source of their own, with one
    line for each place; the address of an instruction is its offset in the code section."""

    def __init__(self, debugger: Debugger) -> None:
        self._debugger = debugger
        self._symbols, self._timeline = debugger.symbols, debugger.timeline
        self._opened, self._opened_at = list[Opened](), -1
        module = self._symbols.module
        self._code = [(instruction.offset, Place(function.index, instruction.place))
                      for function in module.functions for instruction in function.instructions]

    # Sources.

    def source_of(self, place: Place) -> tuple[Body, int]:
        """The source of a place and the line there: a file's, if it is there, or the function's instructions."""
        line = self._symbols.line_at(place)
        path = self._symbols.sources.path(line.file) if line is not None else None
        if line is not None and path is not None:
            return {"name": path.name, "path": str(path.resolve())}, line.line
        name = f"{place.func} {self._symbols.names.function(place.func)}.wat"
        return {"name": name, "sourceReference": FIRST_SOURCE + place.func, "path": name}, place.place + 1

    def content(self, reference: int) -> str:
        """The text of a function's instructions. Raises NoValueError if there is no such function."""
        function = self._function(reference)
        return "\n".join("  " * found.depth + found.text for found in function.instructions) + "\n"

    def _function(self, reference: int) -> Function:
        function = self._symbols.module.function(reference - FIRST_SOURCE)
        if function is None:
            raise NoValueError(f"there is no source {reference}")
        return function

    def places_in(self, source: Body, line: int) -> tuple[list[Place], int]:
        """The places of a line in a source, and the line that they are of. No places if it has none."""
        reference = source.get("sourceReference") or self._reference_named(str(source.get("path", "")))
        if reference:
            function = self._function(reference)
            found = 0 < line <= len(function.instructions)
            return ([Place(function.index, line - 1)] if found else []), line
        file = self._file_named(Path(source.get("path", "")))
        if file is None or self._symbols.lines is None:
            return [], line
        told, places = self._symbols.lines.breakable(file, line)
        return places, told

    def _reference_named(self, path: str) -> int:
        """The reference of a function's instructions, by the path that `source_of` tells; 0 of any other path."""
        index, _, rest = path.rpartition("/")[2].partition(" ")
        return FIRST_SOURCE + int(index) if index.isdigit() and rest.endswith(".wat") else 0

    def _file_named(self, path: Path) -> str | None:
        """The file of the line table that a path is; by its name alone if none of them is there."""
        files = self._symbols.lines.files if self._symbols.lines is not None else []
        for file in files:
            found = self._symbols.sources.path(file)
            if found is not None and path.exists() and found.samefile(path):
                return file
        return next((file for file in files if Path(file).name == path.name), None)

    # Frames and variables.

    def frames(self, first: int, count: int) -> Body:
        """The frames from one on; all of them for a count of 0."""
        frames = self._debugger.frames()
        shown = list(enumerate(frames))[first:first + count if count else None]
        return {"stackFrames": [self._frame(number, frame) for number, frame in shown], "totalFrames": len(frames)}

    def _frame(self, number: int, frame: Frame) -> Body:
        place = self._debugger.place_of(frame, number == 0)
        source, line = self.source_of(place)
        function = self._symbols.names.function(frame.func)
        return {"id": number, "name": f"{function} ({place})", "source": source, "line": line, "column": 1,
                "instructionPointerReference": hex(self._symbols.instruction(place).offset)}

    def scopes(self, number: int) -> Body:
        """The scopes of a frame. What was opened at another turn is closed."""
        if self._opened_at != self._timeline.turn:
            self._opened.clear()
            self._opened_at = self._timeline.turn
        names = [("Locals", LOCALS, "locals"), ("Operands", OPERANDS, "registers"), ("Task", MEMORY, "task")]
        if self._debugger.variables(number):
            names.insert(0, ("Variables", VARIABLES, "locals"))
        return {"scopes": [{"name": name, "variablesReference": KINDS * number + kind, "expensive": False,
                            "presentationHint": hint} for name, kind, hint in names]}

    def variables(self, reference: int) -> Body:
        """The variables of a scope, or what is in a variable."""
        if reference >= FIRST_OPENED:
            opened = self._opened[reference - FIRST_OPENED:][:1]
            return {"variables": self._children(opened[0]) if opened else []}
        number, kind = divmod(reference, KINDS)
        if kind == MEMORY:
            return {"variables": self._task_variables()}
        if kind == VARIABLES:
            return {"variables": list(map(self._c_variable, self._debugger.variables(number)))}
        frame = self.frame(number)
        values = frame.locals if kind == LOCALS else frame.operands
        word = "local" if kind == LOCALS else "operand"
        return {"variables": [self._variable(frame, word, index, value) for index, value in enumerate(values)]}

    def in_memory(self, reference: int | None, name: str, frame: int) -> Found | None:
        """The variable of C with a name in a scope, or what is in an opened one, or in a frame if none is told; None if
        there is none."""
        if reference and reference >= FIRST_OPENED:
            child: Body = next((one for one in self.variables(reference)["variables"] if one["name"] == name), {})
            reference, name = None, child.get("evaluateName", name)
        number = frame if not reference else reference // KINDS
        try:
            found = evaluate(name, self._debugger.scope(number))
        except NoValueError:
            return None
        kind = found.kind
        return None if kind is None else Found(name, kind.name, "", found.number, found.address, kind, found.data)

    def frame(self, number: int) -> Frame:
        """The frame with a number. Raises NoValueError if there is none."""
        frames = self._debugger.frames()
        if not 0 <= number < len(frames):
            raise NoValueError(f"there is no frame {number}")
        return frames[number]

    def _c_variable(self, found: Found) -> Body:
        return {"name": found.name, "value": found.text, "type": found.type, "evaluateName": found.name,
                **self._inner(found.kind, found.data, found.address, found.name)}

    def result(self, found: Operand, expression: str) -> Body:
        """What is shown of the value of an expression. What is in it is named by that."""
        if found.kind is not None:
            name = expression if SIMPLE.fullmatch(expression) else f"({expression})"
            return {"result": found.kind.text(found.data, self._timeline.memory), "type": found.kind.name,
                    **self._inner(found.kind, found.data, found.address, name)}
        shown: Body = {"result": str(found.number if found.value is None else found.value), "variablesReference": 0}
        if found.value is not None:
            shown |= {"type": found.value.type.value, "memoryReference": hex(found.value.number % 2**32)}
        return shown

    def _inner(self, kind: CType, data: bytes | None, address: int | None, name: str) -> Body:
        """What can be opened of a value: the members of a structure, the items of an array, what a pointer points at. The
        references are good until the run moves."""
        shown: Body = {"variablesReference": 0} if address is None else \
            {"variablesReference": 0, "memoryReference": hex(address)}
        if data is not None and (isinstance(kind, (Array, Pointer)) or members_of(kind, data)):
            if isinstance(kind, Pointer) and (kind.to().size == 0 or not int.from_bytes(data, "little")):
                return shown
            self._opened.append(Opened(kind, data, address, name))
            shown["variablesReference"] = FIRST_OPENED + len(self._opened) - 1
        return shown

    def _children(self, opened: Opened) -> list[Body]:
        """What is in a value."""
        kind, data, address, name = opened.kind, opened.data, opened.address, opened.name
        if isinstance(kind, Pointer):
            at, target = int.from_bytes(data, "little"), kind.to()
            found = self._timeline.memory(at, min(target.size, LONGEST_VALUE))
            return [self._child("*", target, found, at, f"*({name})")] if len(found) == target.size else []
        if isinstance(kind, Array):
            size, count = kind.item.size, min(kind.count, MOST_ITEMS)
            return [self._child(f"[{index}]", kind.item, data[index * size:(index + 1) * size],
                                None if address is None else address + index * size, f"{name}[{index}]")
                    for index in range(count) if (index + 1) * size <= len(data)]
        return [self._child(member.name, member.type, member.data(data),
                            None if address is None or member.bits else address + member.offset, f"{name}.{member.name}")
                for member in members_of(kind, data)]

    def _child(self, name: str, kind: CType, data: bytes, address: int | None, words: str) -> Body:
        return {"name": name, "value": kind.text(data, self._timeline.memory), "type": kind.name, "evaluateName": words,
                **self._inner(kind, data, address, words)}

    def _variable(self, frame: Frame, word: str, index: int, value: Value) -> Body:
        name = self._symbols.names.local(frame.func, index) if word == "local" else None
        kind = self._symbols.float_local(frame.func, index) if word == "local" else None
        text = str(value.number) if kind is None else kind.text(value.data(), self._timeline.memory)
        shown: Body = {"name": name or f"{word} {index}", "value": text, "evaluateName": f"{word} {index}",
                       "type": value.type.value if kind is None else kind.name, "variablesReference": 0}
        if value.type == "i32":
            shown["memoryReference"] = hex(value.number % 2**32)
        return shown

    def _task_variables(self) -> list[Body]:
        size = self._timeline.memory_size()
        shown = [("turn", str(self._timeline.turn)), ("memory", f"{size} bytes")]
        shown += [(stream.name.lower(), f"{len(self._timeline.output(stream))} bytes") for stream in Stream]
        found: list[Body] = [{"name": name, "value": value, "variablesReference": 0} for name, value in shown]
        found[1]["memoryReference"] = "0x0"
        return found

    # Memory and instructions.

    def read_memory(self, reference: str, offset: int, count: int) -> Body:
        """Bytes of memory; those that there are not are told as unreadable."""
        at = address(reference, self._debugger.scope(0)) + offset
        if at < 0:
            raise NoValueError("there is no memory before address 0")
        data = self._timeline.memory(at, count)
        return {"address": hex(at), "data": base64.b64encode(data).decode("ascii"),
                "unreadableBytes": count - len(data)}

    def disassemble(self, reference: str, offset: int, instruction_offset: int, count: int) -> Body:
        """Instructions from an address on; where there are none a line says so."""
        at = bisect.bisect_right(self._code, int(reference, 0) + offset, key=lambda found: found[0]) - 1
        first = at + instruction_offset
        return {"instructions": [self._disassembled(index) for index in range(first, first + count)]}

    def _disassembled(self, index: int) -> Body:
        if not 0 <= index < len(self._code):
            beyond = index if index < 0 else self._code[-1][0] + 1 + index - len(self._code) if self._code else 0
            return {"address": hex(max(beyond, 0)), "instruction": "(none)", "presentationHint": "invalid"}
        offset, place = self._code[index]
        source, line = self.source_of(place)
        instruction = self._symbols.instruction(place)
        data = self._symbols.module.data[self._symbols.module.code_at + offset:][:instruction.size]
        return {"address": hex(offset), "instructionBytes": data.hex(" "), "symbol": str(place),
                "instruction": "  " * instruction.depth + instruction.text, "location": source, "line": line}

    def place_at(self, reference: str, offset: int) -> Place:
        """The instruction at an address. Raises NoValueError if none begins there."""
        wanted = int(reference, 0) + offset
        at = bisect.bisect_left(self._code, wanted, key=lambda found: found[0])
        if at == len(self._code) or self._code[at][0] != wanted:
            raise NoValueError(f"no instruction begins at {wanted:#x}")
        return self._code[at][1]
