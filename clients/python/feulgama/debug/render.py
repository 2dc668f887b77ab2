"""What is shown of a run, as lines of text."""
from __future__ import annotations

from feulgama.debug.lines import SourceLine
from feulgama.debug.look import Place
from feulgama.debug.symbols import Symbols, typed_text
from feulgama.model import Frame

AROUND = 5


def stop_lines(symbols: Symbols, turn: int, place: Place, depth: int) -> list[str]:
    """Where a run has stopped: the turn, the line of the source, and the next instruction."""
    lines = [f"turn {turn} at {symbols.told(place)}, {depth} frame{'s' if depth != 1 else ''}"]
    source = symbols.line_at(place)
    text = symbols.sources.line(source) if source is not None else None
    if source is not None and text is not None:
        lines.append(f"{source.line:>4}  {text}")
    return [*lines, f"=>  {place}  {symbols.instruction(place).text}"]


def frame_line(symbols: Symbols, number: int, frame: Frame, place: Place) -> str:
    """A frame in one line, with all that is known of it. `place` is the instruction that it is at."""
    at = "end" if frame.next is None else str(frame.next)
    where = f"#{number} {frame.func}:{at} <{symbols.names.function(frame.func)}>"
    source = symbols.line_at(place)
    parts = [f"labels {' '.join(map(str, frame.labels)) or '-'}", f"locals {' '.join(map(str, frame.locals)) or '-'}",
             f"operands {' '.join(map(str, frame.operands)) or '-'}"]
    return f"{where}{f' {source}' if source is not None else ''} | {' | '.join(parts)}"


def call_line(symbols: Symbols, number: int, frame: Frame, place: Place, arguments: list[str]) -> str:
    """A frame as a call of its function."""
    source = symbols.line_at(place)
    name = symbols.names.function(frame.func).partition("(")[0]
    return f"#{number} {place} <{name}> ({', '.join(arguments)}){f' {source}' if source is not None else ''}"


def local_lines(symbols: Symbols, frame: Frame) -> list[str]:
    """The locals of a frame, with their names."""
    names = (symbols.names.local(frame.func, index) for index in range(len(frame.locals)))
    found = [f"local {index}{f' {name}' if name else ''} = {local_text(symbols, frame, index)}"
             for index, name in enumerate(names)]
    return found or ["no locals"]


def local_text(symbols: Symbols, frame: Frame, index: int) -> str:
    """A local with its type; one that is a float in the module as it was compiled as that."""
    return typed_text(frame.locals[index], symbols.float_local(frame.func, index))


def operand_lines(frame: Frame) -> list[str]:
    """The operands of a frame, the oldest first."""
    return [f"operand {index} = {value}" for index, value in enumerate(frame.operands)] or ["no operands"]


def listing(symbols: Symbols, place: Place, marked: Place | None, around: int = AROUND) -> list[str]:
    """The instructions around a place, those inside blocks indented, and the next one marked."""
    function = symbols.module.function(place.func)
    if function is None:
        return []
    part = function.instructions[max(0, place.place - around):place.place + around + 1]
    found = []
    last = symbols.line_at(Place(place.func, part[0].place)) if part else None
    for instruction in part:
        here = Place(place.func, instruction.place)
        source, arrow = symbols.line_at(here), "=>" if here == marked else "  "
        told = f"    ;; {source}" if source is not None and (source != last or instruction is part[0]) else ""
        found.append(f"{arrow}  {here!s:>7}  {'  ' * instruction.depth}{instruction.text}{told}")
        last = source
    return found


def source_listing(symbols: Symbols, source: SourceLine, around: int = AROUND) -> list[str] | None:
    """The lines of the source around one, which is marked; None if the file is not there."""
    lines = symbols.sources.lines(source.file)
    if lines is None:
        return None
    first = max(1, source.line - around)
    return [f"{'=>' if number == source.line else '  '}{number:>4}  {text}".rstrip()
            for number, text in enumerate(lines[first - 1:source.line + around], first)]
