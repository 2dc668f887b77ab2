"""Modules, texts and lines that ask for much work, each kind at any size."""
from __future__ import annotations

import json
import random
from collections.abc import Callable
from dataclasses import dataclass
from typing import Any

from suite.reference import wasm
from suite.reference.board import process_of, request_of
from suite.trials.modules import (DROP, END, I32, I64, NOP, UNREACHABLE, block, call, code, exported, func_type, i32, imported,
                                  leb, limits, module, program, repeated, sized, vector)

MODULE_BYTES = 262_144
LINE_BYTES = 1_048_576
Make = Callable[[int], bytes]


@dataclass(frozen=True)
class Shape:
    """A kind of input. `make` gives one of about a number of bytes, `number` is its refusal (0: accepted; None: the one
    that the second reading has)."""

    name: str
    make: Make
    number: int | None = None


# --- modules ---

def filled(unit: bytes, before: bytes = b"", after: bytes = b"", **parts: Any) -> Make:
    """An entry that has a unit as often as there is room."""
    return lambda size: program(before + repeated(unit, size - 80) + after, **parts)


def in_pairs(first: bytes, second: bytes) -> Make:
    def make(size: int) -> bytes:
        count = (size - 80) // len(first + second)
        return program(first * count + second * count)
    return make


def labels(size: int) -> bytes:
    return program(i32(0) + b"\x0e" + vector([b"\0"] * (size - 80)) + b"\0")


def wide_labels(size: int) -> bytes:
    """One br_table whose labels all take 1,024 results, in code that is not reached."""
    inside = UNREACHABLE + b"\x0e" + vector([b"\0"] * (size - 1_200)) + b"\0"
    return program(block(inside, b"\x01") + UNREACHABLE, types=[func_type((), [I32] * 1_024)])


def deep_labels(size: int) -> bytes:
    """br_tables with labels of all 256 blocks that are open."""
    table = i32(0) + b"\x0e" + vector([leb(at) for at in range(255)]) + b"\0"
    inside = repeated(b"\x02\x40" + table + END, size - 1_200)
    return program(b"\x02\x40" * 255 + inside + END * 255)


def wide(count: int, unit: bytes, at_block: bytes = b"") -> Make:
    """A unit that takes and gives 1,024 operands of type 1, in code that is not reached."""
    types = [func_type([I32] * count, [I32] * 1_024)]
    return lambda size: program(UNREACHABLE + at_block + repeated(unit, size - count - 1_400) + UNREACHABLE
                                + END * bool(at_block) + UNREACHABLE * bool(at_block), types=types,
                                functions=[(1, code(UNREACHABLE))] if count <= 1_024 else ())


def many_params(unit: bytes, before: bytes = b"", after: bytes = b"", with_table: bool = False,
                type_count: int = 1) -> Make:
    """Types of parameters that take an equal share of the bytes each, and a unit that takes operands of these types, as
    often as the last share has it."""
    def make(size: int) -> bytes:
        share = size // (type_count + 1)
        body = UNREACHABLE + before + repeated(unit, share - 100) + after
        return program(body, types=[func_type([I32] * share, ())] * type_count,
                       table=limits(1) if with_table else None)
    return make


def loops_in_each_other(size: int) -> bytes:
    """Chains of 250 loops in each other that take parameters in no order, as many as half of the bytes."""
    params = random.Random(size).choices([I32, I64], k=size // 2)
    chain = b"\x03\1" * 250 + UNREACHABLE + END * 250
    return program(UNREACHABLE + repeated(chain, size // 2 - 100), types=[func_type(params, ())])


def labels_of_loops(size: int) -> bytes:
    """A br_table of two labels in turn, and of a third one at its end: of three loops in each other, whose type has as
    many parameters as half of the bytes."""
    table = b"\x0e" + vector([b"\1", b"\2"] * (size // 4 - 50)) + b"\0"
    loops = (UNREACHABLE + b"\x03\1") * 3 + UNREACHABLE + table + (END + UNREACHABLE) * 3
    return program(loops, types=[func_type([I32] * (size // 2), ())])


def import_of_many_params(size: int) -> bytes:
    host = (b"proc_exit", (I32,) * (size // 2), ())
    return program(UNREACHABLE + repeated(call(0), size // 2 - 120), [host])


def wide_functions(size: int) -> bytes:
    """Functions of 1,024 parameters and results, up to as many as there may be."""
    types = [func_type([I32] * 1_024, [I32] * 1_024)]
    return program(b"", types=types, functions=[(1, code(UNREACHABLE))] * min((size - 2_200) // 5, 4_095))


def functions_without_code(size: int) -> bytes:
    count = min(size // 64, 4_095)
    return program(b"", functions=[(0, code(b""))] * count)


def runs_of_locals(size: int) -> bytes:
    return program(NOP, runs=[(0, I32)] * ((size - 80) // 2))


def imports(name: bytes, number_of_type: int = 1) -> Make:
    def make(size: int) -> bytes:
        count = min((size - 80) // (len(name) + 27), 4_094)
        return module({1: vector([func_type((), ()), func_type((I32,), ())]),
                       2: vector([imported(name, number_of_type)] * count), 3: vector([b"\0"]),
                       7: vector([exported(b"_start", 0, count)]), 10: vector([code(NOP)])})
    return make


def exports(prefix: int) -> Make:
    """As many names as there is room for, alike in their first bytes; the last is another one."""
    def make(size: int) -> bytes:
        count = (size - 80) // (prefix + 6 + (prefix > 120))
        names = [b"x" * prefix + at.to_bytes(3, "big").translate(BASE_128) for at in map(spread, range(count))]
        return program(NOP, more={7: vector([exported(name, 0, 0) for name in [*names, b"_start"]])})
    return make


BASE_128 = bytes(byte & 0x7F for byte in range(256))


def spread(number: int) -> int:
    """A number whose three lowest bytes are below 128, so that they are characters of ASCII."""
    return number & 0x7F | (number >> 7 & 0x7F) << 8 | number >> 14 << 16


def with_sections(number: int, unit: bytes, **parts: Any) -> Make:
    """A section of a unit as often as there is room."""
    return lambda size: program(NOP, **parts, more={number: vector([unit] * ((size - 80) // len(unit)))})


def type_entries(size: int) -> bytes:
    return program(NOP, types=[func_type((), ())] * ((size - 80) // 3))


def custom_sections(size: int) -> bytes:
    return program(NOP) + repeated(b"\0\1\0", size - 80)


def long_elements(size: int) -> bytes:
    entry = b"\0" + i32(0) + END + vector([b"\0"] * 4_096)
    return program(NOP, table=limits(4_096), more={9: vector([entry] * ((size - 80) // len(entry)))})


def one_segment(size: int) -> bytes:
    return program(NOP, memory=limits(16), more={11: vector([b"\0" + i32(0) + END + sized(bytes(size - 80))])})


def faulty_at_the_end(size: int) -> bytes:
    return program(NOP * (size - 80) + b"\x6a")


def cut_at_the_end(size: int) -> bytes:
    return program(NOP * (size - 80))[:-1]


def long_numbers(size: int) -> bytes:
    number = b"\x42" + b"\x80" * 9 + b"\0" + DROP
    return program(repeated(number, size - 80))


def name_of(kind: str) -> Make:
    def make(size: int) -> bytes:
        name = b"n" * (size - 200)
        if kind == "export":
            return program(NOP, more={7: vector([exported(b"_start", 0, 0), exported(name, 0, 0)])})
        return program(NOP, [(name, (), ())])
    return make


SEGMENT = b"\0" + i32(0) + END + b"\0"
GLOBAL = bytes([I32, 0]) + i32(0) + END
MODULES = [
    Shape("nops", filled(NOP), 0),
    Shape("constants, and then drops", in_pairs(i32(0), DROP), 0),
    Shape("255 blocks in each other, again and again", filled(b"\x02\x40" * 255 + END * 255), 0),
    Shape("255 if and else in each other, again and again",
          filled((i32(0) + b"\x04\x40") * 255 + b"\x05\x0b" * 255), 0),
    Shape("blocks beside each other", filled(block(b"")), 0),
    Shape("a br_table as long as the module", labels, 0),
    Shape("br_tables of one label", filled(block(i32(0) + b"\x0e\1\0\0")), 0),
    Shape("br_tables of 255 labels in 255 blocks", deep_labels, 0),
    Shape("a br_table whose labels take 1,024 values", wide_labels, 0),
    Shape("br_if with 1,024 values", wide(0, b"\x0d\0", b"\x02\1\0"), 0),
    Shape("calls of 1,024 parameters and results", wide(1_024, b"\x10\1"), 0),
    Shape("blocks of 1,024 parameters and results", wide(1_024, block(b"", b"\1")), 0),
    Shape("blocks of parameters by the 10,000", many_params(block(UNREACHABLE, b"\1")), 0),
    Shape("br_if to a loop of parameters by the 10,000", many_params(b"\x0d\0", b"\x03\1\0", b"\0\x0b\0"), 0),
    Shape("loops of parameters by the 10,000 in each other", loops_in_each_other, 0),
    Shape("call_indirect of parameters by the 10,000", many_params(b"\x11\1\0", with_table=True), 0),
    Shape("calls of an import of parameters by the 10,000", import_of_many_params, 22),
    Shape("a br_table of three loops of parameters by the 10,000", labels_of_loops, 0),
    Shape("br_if one operand above parameters by the 10,000",
          many_params(i32(0) + b"\x0d\0", b"\x03\1" + i32(0), UNREACHABLE + END), 0),
    Shape("calls in blocks of parameters by the 10,000",
          many_params(block(i32(0) + b"\x11\1\0", b"\1"), with_table=True), 0),
    Shape("calls of another type of parameters by the 10,000",
          many_params(block(i32(0) + b"\x11\2\0", b"\1"), with_table=True, type_count=2), 0),
    Shape("functions of 1,024 parameters and results", wide_functions, 0),
    Shape("functions without code, up to 4,096", functions_without_code, 0),
    Shape("runs of no locals", runs_of_locals, 0),
    Shape("imports of a call, up to 4,095", imports(b"proc_exit"), 0),
    Shape("imports of no call, with long names", imports(b"n" * 40), 22),
    Shape("exports with short names", exports(0), 0),
    Shape("exports with names of 500 bytes that begin alike", exports(500), 0),
    Shape("types", type_entries, 0),
    Shape("custom sections", custom_sections, 0),
    Shape("globals", with_sections(6, GLOBAL), 0),
    Shape("data segments of no bytes", with_sections(11, SEGMENT, memory=limits(1)), 0),
    Shape("element segments of no functions", with_sections(9, SEGMENT, table=limits(1)), 0),
    Shape("element segments of 4,096 functions", long_elements, 0),
    Shape("one data segment", one_segment, 0),
    Shape("numbers of ten bytes", long_numbers, 0),
    Shape("a long name of an export", name_of("export"), 0),
    Shape("a long name of an import", name_of("import"), 22),
    Shape("a fault in the last instruction", faulty_at_the_end, 8),
    Shape("a module without its last byte", cut_at_the_end, 7),
]


def number_of_module(data: bytes) -> int:
    """How a create over a module is answered, by the second reading."""
    return next((number for number, _ in wasm.refusals_of(data)), 0)


# --- texts ---

def around(unit: str, before: str = "(module ", after: str = ")") -> Make:
    """A text with a unit as often as there is room."""
    return lambda size: (before + unit * ((size - len(before + after)) // len(unit)) + after).encode()


def counted(unit: str, before: str = "(module ", after: str = ")") -> Make:
    """A unit again and again, with another number each time."""
    def make(size: int) -> bytes:
        room = size - len(before + after)
        return (before + "".join(unit % at for at in range(room // len(unit % 0))) + after).encode()
    return make


def nested_comments(size: int) -> bytes:
    return b"(;" * (size // 4) + b";)" * (size // 4) + b"(module)"


def looked_up(declared: str, used: str, before: str = "(module (type $v (func)) ", most: int = 10**6) -> Make:
    """Half of the text declares ids, and the other half names the last of them."""
    def make(size: int) -> bytes:
        count = min(size // 2 // len(declared % 0), most)
        first = before + "".join(declared % at for at in range(count)) + "(func $main (type $v) unreachable "
        return (first + (used % (count - 1)) * ((size // 2) // len(used % 0)) + "))").encode()
    return make


def labels_of_text(size: int) -> bytes:
    opened = "".join("block $b%03d " % at for at in range(255))
    return (f"(module (type (func)) (func (type 0) {opened}" + "br $b000 " * ((size - 5_000) // 9) + "end " * 255
            + "))").encode()


def uses_with_types(size: int) -> bytes:
    types = "i32 " * 1_000
    use = f"(func (type 0) (param {types}))"
    return (f"(module (type (func (param {types}))) " + use * ((size - 4_100) // len(use)) + ")").encode()


def fault_at_the_end(size: int) -> bytes:
    return b"(module (type (func))" + (b"\n" + b" " * 199) * ((size - 40) // 200) + b" x)"


TEXTS = [
    Shape("comments that begin, in each other", around("(;", "", ""), 18),
    Shape("comments in each other", nested_comments, 0),
    Shape("comments up to the end of a line", around(";;\n"), 0),
    Shape("parentheses that open", around("(", "", ""), 18),
    Shape("groups in each other", around("(func "), 18),
    Shape("white space", around(" "), 0),
    Shape("white space, and a fault at the end", fault_at_the_end, 18),
    Shape("one long word", around("a", "(module ", ")"), 18),
    Shape("a string of escapes", around("\\u{0}", '(module (memory 1) (data (offset i32.const 0) "', '"))'), 0),
    Shape("a string that does not end", around("a", '(module "', ""), 18),
    Shape("strings without a character", around('"" ', "(module (memory 1) (data (offset i32.const 0) ", "))"), 0),
    Shape("a number with a million zeros", around("0", "(module (memory ", "1))"), 0),
    Shape("a number with underscores", around("1_", "(module (memory ", "1))"), 18),
    Shape("constants", around("i32.const 0 drop ", "(module (type (func)) (func (type 0) ", "))"), 0),
    Shape("blocks without an end", around("block ", "(module (type (func)) (func (type 0) ", "))"), 9),
    Shape("br_table with labels", around("0 ", "(module (type (func)) (func (type 0) br_table ", "))"), 0),
    Shape("types with ids", counted("(type $t%06d (func))"), 0),
    Shape("parameters with ids", counted("(param $p%06d i32)", "(module (type (func ", ")))"), 0),
    Shape("locals without a group of their own",
          around("i32 ", "(module (type (func)) (func (type 0) (local ", ")))"), 9),
    Shape("globals with ids", counted("(global $g%06d i32 i32.const 0)"), 0),
    Shape("exports", counted('(export "n%06d" (func 0))', "(module (type (func)) (func (type 0)) "), 0),
    Shape("functions with ids", counted("(func $f%06d (type 0))", "(module (type (func)) "), 9),
    Shape("calls by id, of 4,000 functions", looked_up("(func $f%05d (type $v))", "call $f%05d ", most=4_000), 0),
    Shape("call_indirect by id of types by the thousand", looked_up("(type $t%06d (func))",
                                                                    "call_indirect (type $t%06d) "), 0),
    Shape("globals by id, of thousands", looked_up("(global $g%06d i32 i32.const 0)", "global.get $g%06d "), 0),
    Shape("branches by id out of 255 blocks", labels_of_text, 0),
    Shape("uses with 1,000 parameters", uses_with_types, 0),
]


# --- lines ---

def in_line(before: str, unit: str, after: str) -> Make:
    return lambda size: (before + unit * ((size - len(before + after)) // len(unit)) + after).encode()


def counted_in_line(before: str, unit: str, after: str) -> Make:
    def make(size: int) -> bytes:
        count = (size - len(before + after)) // len(unit % 0)
        return (before + "".join(unit % at for at in range(count)) + after).encode()
    return make


def with_config(make: Make) -> Make:
    """A create with a config, which is quoted."""
    return lambda size: json.dumps({"op": "create", "id": "a", "config": make(size).decode()}).encode()


def config_with(unit: str, before: str = ', "x": [', after: str = "0]}", times: float = 1) -> Make:
    """A config over no content with one more property, of a unit again and again; each quote in it takes two bytes."""
    head = ('{"ociVersion":"1.0","process":{"args":["a"],"cwd":"/"},"annotations":{"dev.shim.module":"sha256:'
            + "0" * 64 + '"}' + before)

    def make(size: int) -> bytes:
        room = int((size - 300) / times)
        numbered = (unit % at if "%" in unit else unit for at in range(room // len(unit % 0 if "%" in unit else unit)))
        return (head + "".join(numbered) + after).encode()
    return with_config(make)


LINES = [
    Shape("an id of escapes", in_line('{"op":"state","id":"', "\\u0041", '"}')),
    Shape("an id of pairs of surrogates", in_line('{"op":"state","id":"', "\\ud83d\\ude00", '"}')),
    Shape("a long id", in_line('{"op":"state","id":"', "a", '"}')),
    Shape("a long digest", in_line('{"op":"remove","digest":"sha256:', "0", '"}')),
    Shape("half a surrogate at the end", in_line('{"op":"state","id":"', "\\u0041", '\\ud800"}')),
    Shape("keys that differ", counted_in_line('{"op":"gc"', ',"k%06d":0', "}")),
    Shape("a key again and again", in_line('{"op":"gc"', ',"op":"gc"', "}")),
    Shape("arrays in each other", in_line("", "[", "")),
    Shape("arrays 126 deep, again and again",
          in_line('{"op":"gc","op":[', "[" * 125 + "]" * 125 + ",", '0],"op":"gc"}')),
    Shape("an array of numbers", in_line('{"op":"gc","op":[', "0,", '0],"op":"gc"}')),
    Shape("a number of digits", in_line('{"op":"step","id":"a","count":', "1", "}")),
    Shape("a number of zeros after a point", in_line('{"op":"step","id":"a","count":0.', "0", "1}")),
    Shape("an exponent of digits", in_line('{"op":"step","id":"a","count":0e', "9", "}")),
    Shape("white space in a line", in_line('{"op":"gc"', " ", "}")),
    Shape("hexadecimal of no module's length", in_line('{"op":"put","hex":"', "00", '"}')),
    Shape("hexadecimal with a fault at the end", in_line('{"op":"put","hex":"', "00", '0g"}')),
    Shape("no UTF-8 at the end", lambda size: in_line('{"op":"state","id":"', "a", "")(size - 3) + b'\xff"}'),
    Shape("a config with keys that differ", config_with('"k%06d":0,', ', "x": {', '"k":0}}', 1.2)),
    Shape("a config with annotations that differ",
          config_with('"k%06d":"",', ', "annotations": {', f'"dev.shim.module":"sha256:{"0" * 64}"}}}}', 1.4)),
    Shape("a config with an array of numbers", config_with("0,")),
    Shape("a config of escapes", config_with("\\u0041", ', "x": "', '"}', 1.17)),
    Shape("a config with arrays 120 deep", config_with("[" * 120 + "]" * 120 + ",")),
]


def number_of_line(line: bytes) -> int:
    """How a line is answered on an empty board, by the second reading."""
    request = request_of(line, False)
    if request is None:
        return 1
    if request["op"] == "create":
        return 10 if process_of(request["config"]) is None else 5
    if request["op"] == "put":
        return 9 if len(request["hex"]) > 2 * wasm.MOST_BYTES else 0
    return 0 if request["op"] == "gc" else 2
