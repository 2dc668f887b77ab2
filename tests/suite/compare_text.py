"""Assembles texts of modules with this shim and with wat2wasm (wabt), and compares the bytes.

    tests/run compare-text

The texts are those of examples/*.wat, of the requests put_text of the worked rows, and a few more below.
Prints a line for each text that is not the same or cannot be compared, and the counts; ends with 1 if any
text is assembled differently. wat2wasm takes a larger language, so a text that only one of the two takes
is told, and not counted as different. A text that a row answers with Limit has to be refused so by `asm` too.
Of a block whose type is written by its index this assembler writes the index, and wat2wasm a shorter form
where there is one: such bytes are the same if the modules are, but for that.

Build the program first (make build); PROGRAM in the environment names another one. Needs Debian's wabt.
"""
from __future__ import annotations

import argparse
import json
import subprocess
import tempfile
from collections.abc import Iterator, Sequence
from pathlib import Path
from typing import Any

from suite.places import EXAMPLES, TOP, built, need
from suite.reference import wasm
from suite.rows import spelled
from suite.summary import Summary

ROWS = TOP / "crates/test_inputs/data"
FRAME = ('(module (type $p (func (param i32))) (type $v (func)) (import "wasi_snapshot_preview1" "proc_exit"'
         ' (func $exit (type $p))) %s (func $s (type $v) %s) (export "_start" (func $s)))')
# The bytes of texts of which wat2wasm is known to write others: it takes the index 2^32 - 1 for none, and leaves the section
# out.
DENOTED = {"(module(start 4294967295))": "0061736d010000000805ffffffff0f"}
OVER_A_LIMIT = "refused 9 Limit"
# The fields before the function, and its body.
BODIES = [
    ("", ""),
    ("", "i32.const 7 call $exit"),
    ("", "block (result i32) i32.const 1 i32.const 2 br 0 end call $exit"),
    ("", "block block block i32.const 1 br_table 0 1 2 end i32.const 10 call $exit end"
         " i32.const 11 call $exit end i32.const 12 call $exit"),
    ("", "loop br 0 end"),
    ("", "i32.const -2147483648 i32.const -1 i32.div_s call $exit"),
    ("", "i64.const -9223372036854775808 i64.const 0x7fff_ffff_ffff_ffff i64.rem_s drop"),
    ("", "i32.const 0 if (result i32) i32.const 1 else i32.const 2 end call $exit"),
    ("", "i32.const 0 if nop else end"),
    ("", "(local i32 i32 i64) (local i64 i32) local.get 0 local.tee 1 drop"),
    ("(memory 1 2)", "i32.const 65529 i64.const 72623859790382856 i64.store offset=3 align=1"),
    ("(memory 1)", "i32.const 1 memory.grow memory.size drop drop i32.const 0 i32.load16_s align=2 drop"),
    ('(memory 1) (data (offset i32.const 65532) "\\2a\\00\\u{20ac}\\t")', "nop"),
    ("(global $g (mut i64) i64.const 5) (global i32 i32.const -1)", "global.get $g global.set $g"),
    ("(table 2 funcref) (elem (offset i32.const 0) $exit $s)", "i32.const 1 call_indirect (type $v)"),
    ("(func $i (type $v) nop nop) (start $i)", "i32.const 1 i32.const 2 return"),
    ("", "call 9"),
    ("", "block $a loop $b br $a br $b end $b end $a"),
]


def run(words: Sequence[str | Path]) -> subprocess.CompletedProcess[bytes]:
    return subprocess.run(words, stdin=subprocess.DEVNULL, capture_output=True, check=False)


def first_line(told: bytes) -> str:
    lines = told.decode("utf-8", "replace").strip().splitlines()
    return lines[0] if lines else "no message"


def row_texts(path: Path) -> Iterator[tuple[str, str, bool]]:
    """The texts of a script of the worked rows, but for those that denote no module, and whether they are over a limit."""
    replies = spelled(path.with_suffix(".expected").read_bytes()).split(b"\n")
    lines = spelled(path.read_bytes()).removesuffix(b"\n").split(b"\n")
    for number, line in enumerate(lines, 1):
        if b'"BadText"' in replies[number - 1]:
            continue
        try:
            request = json.loads(line)
        except (ValueError, RecursionError):
            continue
        if isinstance(request, dict) and request.get("op") == "put_text" and isinstance(request.get("text"), str):
            yield f"{path.relative_to(TOP)}:{number}", request["text"], b'"Limit"' in replies[number - 1]


def texts() -> Iterator[tuple[str, str, bool]]:
    """Each text that has a module: where it is from, the text, and whether it is over a limit."""
    for path in sorted(EXAMPLES.glob("*.wat")):
        yield str(path.relative_to(TOP)), path.read_bytes().decode(), False
    for path in sorted(ROWS.glob("*.jsonl")):
        yield from row_texts(path)
    for number, (fields, body) in enumerate(BODIES, 1):
        yield f"body {number}", FRAME % (fields, body), False


def shorter(module: Any, sequence: list[Any]) -> list[Any]:
    """The sequence with the type of each block in its shortest form."""
    found = []
    for opcode, *rest in sequence:
        if opcode in (0x02, 0x03, 0x04):
            params, results = wasm.types_of(module, rest[0])
            kind = tuple(results) if not params and len(results) <= 1 else rest[0]
            rest = [kind, *(shorter(module, arm) for arm in rest[1:])]
        found.append((opcode, *rest))
    return found


def but_for_block_types(data: bytes) -> Any:
    """The module that bytes spell, with the types of its blocks in their shortest form."""
    module = wasm.Decoder(data).module()
    for func in module.funcs:
        func.body = shorter(module, func.body)
    return module


def is_same(given: str, wanted: str) -> bool:
    """Whether two spellings in hexadecimal are those of one module, but for the types of blocks."""
    return given == wanted or but_for_block_types(bytes.fromhex(given)) == but_for_block_types(bytes.fromhex(wanted))


def different(name: str, given: str, other: str) -> str:
    """Tells of a text that is not assembled as it has to be."""
    print(f"different: {name}\n  asm      {given}\n  {other}")
    return "different"


def compared(folder: Path, name: str, text: str, is_over: bool) -> str:
    """What comes of a text: `the same`, `different` or `not compared`. Prints why, if it is not the same."""
    source, target = folder / "m.wat", folder / "m.wasm"
    source.write_bytes(text.encode())
    ours = run([built(), "asm", source])
    given = ours.stdout.decode().strip() if ours.returncode == 0 else first_line(ours.stderr)
    if is_over or text in DENOTED:
        wanted = OVER_A_LIMIT if is_over else DENOTED[text]
        return "the same" if given == wanted else different(name, given, f"wanted   {wanted}")
    theirs = run(["wat2wasm", "--no-check", source, "-o", target])
    if ours.returncode or theirs.returncode:
        why = [given] if ours.returncode else []
        why += ["wat2wasm: " + first_line(theirs.stderr)] if theirs.returncode else []
        print(f"not compared: {name}: {'; '.join(why)}")
        return "not compared"
    wanted = target.read_bytes().hex()
    return "the same" if is_same(given, wanted) else different(name, given, f"wat2wasm {wanted}")


def main(words: list[str]) -> int:
    argparse.ArgumentParser(prog="tests/run compare-text", description=__doc__,
                            formatter_class=argparse.RawDescriptionHelpFormatter).parse_args(words)
    need({"wat2wasm": "wabt"})
    with tempfile.TemporaryDirectory() as folder:
        found = [compared(Path(folder), *text) for text in texts()]
    return Summary("compare-text", found.count("the same"), found.count("different"), found.count("not compared")).end()
