"""Assertions of WebAssembly's official test suite on modules with floats, and modules that make them in one run.

`data/float_suite.txt` has them in lines: a module's file and its bytes, `func NAME PARAMS RESULTS` for each function that is
called, and calls with the bits of their operands and of their result, or the text of their trap. As a program this file writes
it from the suite's scripts, by wabt's wast2json: python3 -m tests.float_suite FOLDER, in clients/python."""
from __future__ import annotations

import json
import re
import subprocess
import sys
import tempfile
from collections.abc import Iterable, Iterator
from dataclasses import dataclass, field
from pathlib import Path
from typing import Any

from feulgama.lowering.source import CODE, EXPORT, FUNCTION, TYPE, sections_of
from feulgama.wasm import writer as w
from feulgama.wasm.module import HEAD
from feulgama.wasm.reader import Reader

FILE = Path(__file__).with_name("data") / "float_suite.txt"
SCRIPTS = ("f32", "f64", "f32_bitwise", "f64_bitwise", "f32_cmp", "f64_cmp", "conversions", "float_exprs", "float_literals",
           "float_memory", "float_misc")
# Of control, variables and the table, whose modules have floats as well.
OTHERS = ("block", "br", "br_if", "br_table", "call", "call_indirect", "const", "endianness", "func", "globals", "if",
          "left-to-right", "local_get", "local_set", "local_tee", "loop", "return", "select", "traps", "unreachable", "unwind")
# What needs more than the 256 pages of memory that a task may have: of these scripts the call of this name.
LARGE = {"call": "as-memory.grow-value", "call_indirect": "as-memory.grow-value"}
MADE = ("assert_return", "assert_trap", "action")
AT_ONCE = 400
# Of a type: the word for a constant, whether its bytes are those of a float, what makes an integer of it, what compares two.
CONSTANTS = {"i32": b"\x41", "i64": b"\x42", "f32": b"\x43", "f64": b"\x44"}
BITS = {"i32": 32, "i64": 64, "f32": 32, "f64": 64}
REINTERPRET = {"i32": b"", "i64": b"", "f32": b"\xbc", "f64": b"\xbd"}
AND, DIFFERS = {32: b"\x71", 64: b"\x83"}, {32: b"\x47", 64: b"\x52"}
CANONICAL = {32: 0x7FC00000, 64: 0x7FF8000000000000}
NOT_SIGN = {32: 0x7FFFFFFF, 64: 0x7FFFFFFFFFFFFFFF}


@dataclass(frozen=True, slots=True)
class Call:
    """A call of an export: what it has to give, in bits or as a kind of NaN, is None if it is not looked at; or its trap."""
    name: str
    operands: tuple[int, ...]
    result: str | None
    trap: str | None = None


@dataclass(slots=True)
class Script:
    """A module of the suite: its file, its bytes, the types of its functions, and the calls."""
    name: str
    data: bytes
    kinds: dict[str, tuple[list[str], list[str]]] = field(default_factory=dict)
    calls: list[Call] = field(default_factory=list)


def scripts() -> list[Script]:
    """All of the file."""
    found: list[Script] = []
    for line in FILE.read_text().splitlines():
        word, *rest = line.split(" ")
        match word:
            case "module":
                found.append(Script(rest[0], bytes.fromhex(rest[1])))
            case "func":
                params, results = (part.split(",") if part != "-" else [] for part in rest[1:])
                found[-1].kinds[rest[0]] = params, results
            case _:
                found[-1].calls.append(call_of(line))
    return found


def call_of(line: str) -> Call:
    """A call in its line."""
    called, _, trap = line.partition(" ! ")
    called, _, result = called.partition(" = ")
    name, *operands = called.split(" ")
    return Call(name, tuple(int(one, 16) for one in operands), result or None, trap or None)


def constant(kind: str, bits: int) -> bytes:
    """A constant of these bits."""
    if kind in ("f32", "f64"):
        return CONSTANTS[kind] + bits.to_bytes(BITS[kind] // 8, "little")
    half = 1 << BITS[kind] - 1
    return CONSTANTS[kind] + w.signed((bits + half) % (2 * half) - half)


def made(script: Script, index: int, call: Call) -> bytes:
    """The call, and `unreachable` if it gives another result."""
    params, results = script.kinds[call.name]
    code = b"".join(constant(kind, bits) for kind, bits in zip(params, call.operands, strict=True)) + w.call(index)
    if call.result is None:
        return code + w.DROP * len(results)
    kind, = results
    size = BITS[kind]
    integer, code = f"i{size}", code + REINTERPRET[kind]
    if call.result.startswith("nan:"):
        mask = NOT_SIGN[size] if call.result == "nan:canonical" else CANONICAL[size]
        code += constant(integer, mask) + AND[size] + constant(integer, CANONICAL[size])
    else:
        code += constant(integer, int(call.result, 16))
    return code + DIFFERS[size] + w.IF + b"\0\x0b"


def exports_of(data: bytes) -> dict[str, int]:
    """The functions that are exported."""
    reader = contents(data, EXPORT)
    entries = ((reader.name(), reader.byte(), reader.unsigned()) for _ in range(reader.unsigned()))
    return {name: index for name, kind, index in entries if kind == 0}


def contents(data: bytes, number: int) -> Reader:
    """A section, which is there."""
    section, = (one for one in sections_of(data) if one.number == number)
    return Reader(data, section.begin, section.end)


def with_start(script: Script, calls: Iterable[Call]) -> bytes:
    """The module with functions that make the calls, and a `_start` that calls these. It ends without a trap if all hold."""
    indices, calls = exports_of(script.data), list(calls)
    parts = [b"".join(made(script, indices[call.name], call) for call in calls[at:at + AT_ONCE])
             for at in range(0, len(calls), AT_ONCE)]
    kind = contents(script.data, TYPE).unsigned()
    first = contents(script.data, FUNCTION).unsigned()
    parts.append(b"".join(w.call(first + at) for at in range(len(parts))))
    extra = {TYPE: [b"\x60\0\0"], FUNCTION: [w.unsigned(kind)] * len(parts),
             EXPORT: [w.sized(b"_start") + b"\0" + w.unsigned(first + len(parts) - 1)],
             CODE: [w.sized(b"\0" + part + b"\x0b") for part in parts]}
    found = HEAD
    for section in sections_of(script.data):
        reader = Reader(script.data, section.begin, section.end)
        if section.number in extra:
            entries = extra[section.number]
            count = reader.unsigned() + len(entries)
            body = w.unsigned(count) + script.data[reader.at:section.end] + b"".join(entries)
            found += bytes([section.number]) + w.sized(body)
        else:
            found += script.data[section.first:section.end]
    return found


def hexadecimal(entry: dict[str, str]) -> str:
    """The bits of an operand, or the kind of a NaN."""
    return entry["value"] if entry["value"].startswith("nan") else f"{int(entry['value']):x}"


def lines_of(name: str, folder: Path, commands: list[dict[str, Any]]) -> Iterator[str]:
    """The lines for a script in the form of wast2json. Modules without calls, and what is not valid, are left out."""
    head: list[str] = []
    known = set[str]()
    for command in commands:
        kind, action = command["type"], command.get("action", {})
        if kind == "module":
            head, known = [f"module {name} {(folder / command['filename']).read_bytes().hex()}"], set()
        elif kind in MADE and action["type"] == "invoke" and action["field"] != LARGE.get(name):
            yield from head
            head = []
            words, expected = [action["field"], *map(hexadecimal, action["args"])], command.get("expected", [])
            if words[0] not in known:
                known.add(words[0])
                yield f"func {words[0]} " + " ".join(",".join(one["type"] for one in part) or "-"
                                                     for part in (action["args"], expected))
            result = [f"= {hexadecimal(one)}" for one in expected] if kind == "assert_return" else []
            yield " ".join([*words, *result, *([f"! {command['text']}"] if kind == "assert_trap" else [])])


def modern(name: str, text: str) -> str:
    """A script with results of NaN as they are written today."""
    def assertion(found: re.Match[str]) -> str:
        kind = next((one for one in (found[3], name[:3]) if one in ("f32", "f64")), "f32")
        return f"(assert_return {found[2]} ({kind}.const nan:{found[1]}))"

    return re.sub(r'\(assert_return_(canonical|arithmetic)_nan (\(invoke "(...)[^\n]*\))\)', assertion, text)


def write(folder: Path) -> None:
    """Writes the file."""
    with tempfile.TemporaryDirectory() as made_in, FILE.open("w") as out:
        for name in SCRIPTS + OTHERS:
            script, found = Path(made_in, f"{name}.wast"), Path(made_in, f"{name}.json")
            script.write_text(modern(name, (folder / script.name).read_text()))
            subprocess.run(["wast2json", script, "-o", found], check=True)
            for line in lines_of(name, Path(made_in), json.loads(found.read_text())["commands"]):
                print(line, file=out)


if __name__ == "__main__":
    write(Path(sys.argv[1]))
