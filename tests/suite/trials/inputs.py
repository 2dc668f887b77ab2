"""Every prefix and every single flipped bit of modules, texts, configs and lines: each is answered by one line,
with the number that the second reading of the standards has where it reads the same thing."""
from __future__ import annotations

import json
import multiprocessing
import sys
from collections.abc import Callable, Iterator
from pathlib import Path

from suite.reference import callers, frames, programs, wasm
from suite.reference.board import NAMES, Board, Refused, line_of as reply_of
from suite.trials.modules import (DROP, END, EXIT, I32, I64, NOP, UNREACHABLE, YIELD, block, call, code, digest_of, func_type,
                                  i32, i64, leb, limits, program as module_of, sized, vector)
from suite.trials.program import TOP, Report, Session, agree, config_of, line_of, number_of
from suite.trials.scripts import LOOP

BATCH = 400
# There are nine inputs for each byte of the ten modules, and so more than 100,000 together.
MOST_BYTES = 1_700
KILLED = b'{"cause":"kill","exit":137,"id":"a","n":0,"ok":true,"signal":9,"status":"stopped"}'
STOPPED = b'{"id":"a","ok":true,"status":"stopped"}'
CREATED = b'{"id":"a","ok":true,"status":"created"}'
KILL, DELETE = line_of(op="kill", id="a", signal=9), line_of(op="delete", id="a")


def bent(data: bytes) -> Iterator[bytes]:
    """Every prefix of some bytes, and the bytes with each single bit flipped."""
    for length in range(len(data)):
        yield data[:length]
    for at, byte in enumerate(data):
        for bit in range(8):
            yield data[:at] + bytes([byte ^ 1 << bit]) + data[at + 1:]


def batches(items: Iterator[bytes], size: int = BATCH) -> Iterator[list[bytes]]:
    batch = []
    for item in items:
        batch.append(item)
        if len(batch) == size:
            yield batch
            batch = []
    if batch:
        yield batch


def refused(number: int, place: tuple[int, int] | None = None) -> bytes:
    line: bytes = reply_of(Refused(number, place).reply())
    return line


def some_modules() -> list[bytes]:
    """Ten modules: one with every section, and nine random ones, most of which are programs that run."""
    makers = [programs.program, frames.program] * 4
    return [whole_module(), of_size(callers.program, 600), *(of_size(maker, 1_300) for maker in makers)]


def of_size(maker: Callable[[], bytes], least: int) -> bytes:
    """A random module with at least this many bytes, and not many more."""
    while not least <= len(data := maker()) <= MOST_BYTES:
        pass
    return data


def whole_module() -> bytes:
    """A module with every section, two types with several results, and blocks that take and give operands."""
    pair, swap = func_type((I32,), (I32, I64)), func_type((I32, I64), (I64, I32))
    turned = i32(7) + block(i64(-1) + i32(0) + b"\x0d\0" + b"\x0c\0", b"\x01")
    body = turned + block(b"\x21\1\x21\0\x20\1\x20\0", b"\x02") + DROP + DROP
    body += block(i32(0) + b"\x0e\2\0\1\0", opcode=3) + i32(1) + block(NOP + b"\x05" + UNREACHABLE, opcode=4)
    body += i32(0) + b"\x11\0\0" + i32(16) + b"\x29\3\0" + i32(8) + b"\x40\0" + DROP + DROP + i32(3) + call(0)
    more = {
        0: sized(b"name") + bytes(range(40)),
        6: vector([bytes([I64, 1]) + i64(-2**63) + END, bytes([I32, 0]) + i32(2**31 - 1) + END]),
        8: leb(3),
        9: vector([b"\0" + i32(0) + END + vector([leb(3), leb(2)])]),
        11: vector([b"\0" + i32(65_530) + END + sized(b"\xff" * 6), b"\0" + i32(0) + END + sized(b"")]),
    }
    return module_of(body, [EXIT, YIELD], [(1, I32), (1, I64)], [pair, swap], [(0, code(call(1) + DROP + b"\x0f"))],
                     limits(1, 2), limits(2, 300), more=more)


def wanted_of_modules(inputs: list[bytes]) -> list[list[bytes]]:
    """What each module's five lines are answered, by the second reading: put, create, kill, delete, remove."""
    sys.setrecursionlimit(10_000)
    found = []
    for data in inputs:
        digest = digest_of(data)
        refusals = [refused(number, place) for number, place in wasm.refusals_of(data)]
        task = [refusals[0], refused(4), refused(4)] if refusals else [CREATED, STOPPED, KILLED]
        found.append([reply_of({"digest": digest, "ok": True, "size": len(data)}), *task,
                      reply_of({"digest": digest, "ok": True})])
    return found


def lines_of_module(data: bytes) -> list[bytes]:
    digest = digest_of(data)
    return [line_of(op="put", hex=data.hex()), line_of(op="create", id="a", config=config_of(digest)), KILL, DELETE,
            line_of(op="remove", digest=digest)]


def try_modules(program: Path, report: Report, jobs: int) -> None:
    modules = some_modules()
    report.add("modules", len(modules))
    inputs = list(batches(data for module in modules for data in [module, *bent(module)]))
    # The processes of the second reading are there before the program, whose input they would else keep open.
    with multiprocessing.Pool(jobs) as pool:
        session = Session(program)
        for batch, wanted in zip(inputs, pool.imap(wanted_of_modules, inputs)):
            lines = [line for data in batch for line in lines_of_module(data)]
            if not session.has_room(len(lines)):
                finish(report, session)
                session = Session(program)
            replies = session.ask_all(lines)
            told = [reply for replies_ in wanted for reply in replies_]
            compare(report, "a bent module", lines, told, replies)
            for reply in replies[1::5]:
                report.add(f"modules answered {number_of(reply)}" if number_of(reply) else "modules accepted")
            if len(replies) < len(lines) or len(report.faults) > 20:
                break
        finish(report, session)


def compare(report: Report, what: str, lines: list[bytes], wanted: list[bytes], replies: list[bytes]) -> None:
    for line, want, found in zip(lines, wanted, replies):
        if want != found and not agree(line, want, found):
            report.differ(what, line, want, found)
    if len(replies) < len(lines):
        report.differ(f"{what}: no reply", lines[len(replies)], wanted[len(replies)] if wanted else b"", None)


def finish(report: Report, session: Session) -> None:
    status, told = session.close()
    if status or told:
        report.fault(f"serve ended with status {status}, and {told!r} on standard error")


def quoted(text: bytes) -> bytes:
    """A text as a JSON string, byte by byte, so that what is no UTF-8 stays so."""
    escapes = {byte: b"\\u%04x" % byte for byte in range(0x20)} | {0x22: b'\\"', 0x5C: b"\\\\"}
    return b'"' + b"".join(escapes.get(byte, bytes([byte])) for byte in text) + b'"'


def is_utf8(data: bytes) -> bool:
    try:
        data.decode()
    except UnicodeDecodeError:
        return False
    return True


# Texts beside those of examples/: each kind of field, of index, of number, of string, of comment and of block.
TEXTS = [
    r'''(module $m (type $t (func (param $x i32) (param i64 i64) (result i32))) (type (func)) (; a (; b ;) ;)
  (import "wasi_snapshot_preview1" "sched_yield" (func $y (type 2))) (type (func (result i32)))
  (table $tab 2 0x1_0 funcref) (memory $mem 1 2) (global $g (mut i64) i64.const -0x8000_0000_0000_0000)
  (global i32 i32.const +7) (func $f (type $t) (param $a i32) (param i64 i64) (result i32) (local $l i32) (local i64)
  local.get $a i32.load16_s offset=1 align=1 local.tee $l i32.const 0xff i32.and) (func (type 1)) (start 2)
  (export "_start" (func 2)) (export "\u{20ac}\"\\\t\41" (memory $mem)) (export "" (table 0)) (export "g" (global $g))
  (elem (offset i32.const 0) $f 2) (data (offset i32.const 65530) "\00\ff" "é" ""))''',
    r'''(module (type $pair (func (param i32) (result i32 i64))) (type $v (func)) (table 1 funcref) (memory 0)
  (func $s (type $v) (local i32 i64) i32.const 1 block $b (type $pair) (param i32) (result i32 i64) i64.const 2
  i32.const 0 br_if $b br $b end $b local.set 1 if $i (result i32) i32.const 3 else $i i32.const 0x0 end $i drop
  loop $l i32.const 1 br_table 0 $l 1 end unreachable i32.const 0 call_indirect (type $v)
  i32.const 0 memory.grow memory.size i32.lt_u select) ;; a comment
  (export "_start" (func $s)))''',
    "(module(type(func))(func(type 0)nop)(export\"_start\"(func 0)))",
    "(module (type (func)) (func (type 0) " + "block " * 40 + "end " * 40 + ') (export "_start" (func 0)))',
]


def some_texts() -> list[bytes]:
    """Ten texts that denote modules."""
    names = ["factorial", "hello", "indirect", "sum", "trap_indirect_call_type_mismatch", "trap_undefined_element"]
    return [(TOP / f"examples/{name}.wat").read_bytes() for name in names] + [text.encode() for text in TEXTS]


def is_place_in(text: str, line: int, column: int) -> bool:
    """Whether a place is that of a character of a text, or the one after its last."""
    lines = text.split("\n")
    return 1 <= line <= len(lines) and 1 <= column <= len(lines[line - 1]) + 1


def fault_of_text(text: bytes, reply: bytes) -> str | None:
    """What is wrong with the reply to a put_text, as far as its form shows. A text that is no UTF-8 makes a line that
    is none."""
    told = json.loads(reply)
    if not is_utf8(text):
        return None if reply == refused(1) else "no UTF-8"
    if told["ok"]:
        return None if set(told) == {"digest", "ok", "size"} and told["size"] <= wasm.MOST_BYTES else "the form"
    if told == {"error": NAMES[9], "number": 9, "ok": False}:
        return None
    if set(told) != {"column", "error", "line", "number", "ok"} or (told["error"], told["number"]) != ("BadText", 18):
        return "the form"
    return None if is_place_in(text.decode(), told["line"], told["column"]) else "no place of the text"


def try_texts(program: Path, report: Report) -> None:
    session, taken = Session(program), {}
    for batch in batches(data for text in some_texts() for data in [text, *bent(text)]):
        lines = [line for text in batch for line in (b'{"op":"put_text","text":' + quoted(text) + b"}", b'{"op":"gc"}')]
        if not session.has_room(len(lines)):
            finish(report, session)
            session = Session(program)
        replies = session.ask_all(lines)
        for line, text, reply in zip(lines[::2], batch, replies[::2]):
            fault = fault_of_text(text, reply)
            if fault is not None:
                report.differ(f"a bent text: {fault}", line, b"", reply)
            told = json.loads(reply)
            report.add(f"texts answered {told['number']}" if "number" in told else "texts accepted")
            if told["ok"]:
                taken[told["digest"]] = text
        if len(replies) < len(lines):
            report.differ("a bent text: no reply", lines[len(replies)], b"", None)
            break
    finish(report, session)
    try_taken_texts(program, report, taken)


def try_taken_texts(program: Path, report: Report, taken: dict[str, bytes]) -> None:
    """Of the texts that were taken: a create never finds that their bytes encode no module (7)."""
    session = Session(program)
    for digest, text in taken.items():
        if not session.has_room(5):
            finish(report, session)
            session = Session(program)
        lines = [b'{"op":"put_text","text":' + quoted(text) + b"}",
                 line_of(op="create", id="a", config=config_of(digest)), KILL, DELETE, line_of(op="gc")]
        replies = session.ask_all(lines)
        number = number_of(replies[1]) if len(replies) == len(lines) else None
        if number not in (0, 8, 9, 21, 22, 23):
            report.differ("a create over a text", lines[0], b"", replies[1] if len(replies) > 1 else None)
        report.add(f"texts whose create was answered {number}" if number else "texts whose create was accepted")
    finish(report, session)


def some_configs(digest: str) -> list[bytes]:
    text = config_of(digest)
    return [config.encode() for config in (
        text,
        config_of(digest, limit=1_048_576, args=("a", "", "ä b"), env=["A=1", "B=\u20ac"]),
        '{"ociVersion":"1.","process":{"args":["\\u0061\\n"],"cwd":"/x","env":[]},"annotations":{"a":"b",'
        f'"dev.shim.module":"{digest}"}},"linux":{{}},"mounts":[{{"options":["ro",1,-1,null,true]}}]}}',
        text[:-1] + ', "ociVersion": "1.0", "linux": {"resources": {"memory": {"limit": -1, "swap": 0}}}}',
        text.replace('"args"', '"user": {"uid": 1000, "gid": 18446744073709551615}, "args"', 1))]


def try_configs(program: Path, report: Report) -> None:
    """The first run's module is there, and each config is created, killed and deleted."""
    data = first_module()
    puts = [line_of(op="put", hex=data.hex())]
    session, board = None, Board(False)
    for batch in batches(config for whole in some_configs(digest_of(data)) for config in [whole, *bent(whole)]):
        lines = [line for config in batch
                 for line in (b'{"op":"create","id":"a","config":' + quoted(config) + b"}", KILL, DELETE)]
        if session is None or not session.has_room(len(lines)):
            if session is not None:
                finish(report, session)
            session, board = Session(program), Board(False)
            compare(report, "a put", puts, [board.answer(puts[0])], session.ask_all(puts))
        wanted = [board.answer(line) for line in lines]
        replies = session.ask_all(lines)
        compare(report, "a bent config", lines, wanted, replies)
        for reply in replies[::3]:
            report.add(f"configs answered {number_of(reply)}" if number_of(reply) else "configs accepted")
        if len(replies) < len(lines):
            break
    if session is not None:
        finish(report, session)


def first_module() -> bytes:
    """The module of the first run: 82 bytes, which exit with 7."""
    put = json.loads((TOP / "examples/first_run.jsonl").read_bytes().splitlines()[0])
    return bytes.fromhex(put["hex"])


def some_lines(data: bytes) -> list[tuple[bytes, list[bytes]]]:
    """Twenty request lines, each with lines that are asked before."""
    digest = digest_of(data)
    put = line_of(op="put", hex=data.hex())
    lease, add = line_of(op="lease_create", id="l"), line_of(op="lease_add", id="l", digest=digest)
    create = line_of(op="create", id="a", config=config_of(digest))
    start, break_ = line_of(op="start", id="a"), line_of(op="break", id="a", func=1, place=1)
    paused = [put, create, line_of(op="break", id="a", func=1, place=0), start]
    loops = [line_of(op="put", hex=LOOP.hex()), line_of(op="create", id="loop", config=config_of(digest_of(LOOP))),
             line_of(op="start", id="loop")]
    return [
        (put, []), (line_of(op="remove", digest=digest), [put]), (lease, [put]), (add, [put, lease]),
        (line_of(op="lease_delete", id="l"), [put, lease, add]), (line_of(op="gc"), [put]),
        (create, [put]), (start, [put, create]), (line_of(op="pause", id="loop"), loops),
        (line_of(op="resume", id="a"), paused), (line_of(op="kill", id="a", signal=15), [put, create]),
        (DELETE, [put, create, KILL]), (line_of(op="state", id="a"), [put, create]),
        (line_of(op="wait", id="a"), [put, create, start]), (line_of(op="output", id="a", stream=1), [put, create]),
        (break_, [put, create]), (line_of(op="unbreak", id="a", func=1, place=1), [put, create, break_]),
        (line_of(op="step", id="a", count=1000), paused), (line_of(op="inspect", id="a"), paused),
        (b' { "id" : "a", "op":"p\\u0065ek", "address":0,"length":0 ,"id":"a"}\r\t', [put, create]),
    ]


def lines_around(before: list[bytes], line: bytes) -> list[bytes]:
    """The lines before a bent one, that one, and lines after it that end its task and leave nothing of it. A task
    `a` that was started ends by itself, so it is waited for; one that never ends is killed first."""
    name = "loop" if before[-1:] == [line_of(op="start", id="loop")] else "a"
    wait, kill = line_of(op="wait", id=name), line_of(op="kill", id=name, signal=9)
    after = [kill, wait] if name == "loop" else [wait, kill]
    return [*before, *line.split(b"\n"), *after, line_of(op="delete", id=name), line_of(op="lease_delete", id="l"),
            line_of(op="gc")]


def try_lines(program: Path, report: Report) -> None:
    """Each bent line is asked with lines before it that make what it names; all are compared with the second
    board's."""
    for whole, before in some_lines(first_module()):
        session, board = Session(program), Board(False)
        for batch in batches(iter([whole, *bent(whole)])):
            lines = [other for line in batch for other in lines_around(before, line)]
            if not session.has_room(len(lines)):
                finish(report, session)
                session, board = Session(program), Board(False)
            wanted = [board.answer(line) for line in lines]
            replies = session.ask_all(lines)
            compare(report, "a bent line", lines, wanted, replies)
            report.add("bent lines", len(batch))
            report.add("lines with those beside them", len(lines))
            if len(replies) < len(lines):
                break
        finish(report, session)


def try_put_text_lines(program: Path, report: Report) -> None:
    """Bent lines of a put_text, which the second board does not have: those that are JSON of the right form are texts,
    and all others are answered 1."""
    session = Session(program)
    whole = line_of(op="put_text", text='(module (type (func)) (data) (export "\\u0041" (func 0)))')
    lines = [part for line in [whole, *bent(whole)] for part in (*line.split(b"\n"), b'{"op":"gc"}')]
    replies = session.ask_all(lines)
    for line, reply in zip(lines, replies):
        if line == b'{"op":"gc"}':
            continue
        try:
            told = json.loads(line.decode())
            text = told["text"] if set(told) == {"op", "text"} and told["op"] == "put_text" else None
        except (ValueError, TypeError, KeyError):
            text = None
        report.add("bent lines of put_text")
        if not isinstance(text, str):
            if reply != refused(1):
                report.differ("a bent line of put_text", line, refused(1), reply)
        elif (fault := fault_of_text(text.encode(), reply)) is not None:
            report.differ(f"a bent line of put_text: {fault}", line, b"", reply)
    if len(replies) < len(lines):
        report.differ("a bent line of put_text: no reply", lines[len(replies)], b"", None)
    finish(report, session)


def padded(line: bytes, size: int) -> bytes:
    """A line with white space after it, of this many bytes."""
    return line + b" " * (size - len(line))


def nested(depth: int) -> bytes:
    """A line whose arrays and objects are this deep; the array is a value that a later one of the same key replaces."""
    return b'{"op":' + b"[" * (depth - 1) + b"]" * (depth - 1) + b',"op":"gc"}'


def edges(data: bytes) -> list[bytes]:
    """Lines at limits and one beyond: of ids, digests, lines, depths, bytes and numbers."""
    ids = ("a", "a" * 64, "a" * 65, "", "a\0", "a-._Z9", ".a", "\u00e9", "a" * 63 + "\u00e9", "0")
    digest, zeros = digest_of(data), "0" * 64
    digests = (digest, digest[:-1], digest + "0", digest.upper(), digest[:7] + "A" * 64, f"sha256:{zeros}",
               f"sha512:{zeros}")
    lines = [line_of(op="put", hex=data.hex())]
    lines += [line_of(op="lease_create", id=name) for name in ids] + [line_of(op="state", id=name) for name in ids]
    lines += [line_of(op="lease_add", id="a", digest=text) for text in digests]
    lines += [line_of(op="lease_delete", id=name) for name in ids]
    lines += [line_of(op="remove", digest=text) for text in digests]
    sizes = (1_048_575, 1_048_576, 1_048_577, 3_000_000)
    lines += [padded(line, size) for line in (b'{"op":"gc"}', b"x") for size in sizes]
    lines += [nested(depth) for depth in (126, 127, 128, 129)]
    lines += [line_of(op="put", hex="00" * size) for size in (0, 1, 262_143, 262_144, 262_145)] + [line_of(op="gc")]
    lines += [line_of(op="put", hex=data.hex()), line_of(op="create", id="a", config=config_of(digest, limit=65_536)),
              line_of(op="break", id="a", func=1, place=0), line_of(op="start", id="a")]
    numbers = (0, 1, 9, 15, 255, 256, 257, 1_000, 1_001, 2**31, 2**32, 2**63, 2**64 - 1, 2**64, -1)
    lines += [line_of(op="peek", id="a", address=at, length=count) for at in numbers for count in numbers]
    lines += [line_of(op="step", id="a", count=count) for count in (0, 1_001, 2**64 - 1, 2**64, -1, 1)]
    lines += [line_of(op="output", id="a", stream=stream) for stream in (0, 1, 2, 3, 2**64 - 1, 2**64)]
    for op in ("break", "unbreak"):
        lines += [line_of(op=op, id="a", func=at, place=place) for at in numbers for place in numbers]
    return [*lines, *(line_of(op="kill", id="a", signal=number) for number in numbers), DELETE, line_of(op="gc")]


def try_edges(program: Path, report: Report) -> None:
    """What is at a limit and beyond is answered as by the second board."""
    session, board, lines = Session(program), Board(False), edges(first_module())
    compare(report, "a line at a limit", lines, [board.answer(line) for line in lines], session.ask_all(lines))
    report.add("lines at limits", len(lines))
    finish(report, session)


def try_full_tables(program: Path, report: Report) -> None:
    """As many contents, leases, members, tasks and breakpoints as there may be, and one more of each."""
    session, board, data = Session(program), Board(False), module_of(NOP * 40)
    digest = digest_of(data)
    lines = [line_of(op="put", hex=f"{at:04x}") for at in range(256)] + [line_of(op="put", hex=data.hex())]
    lines += [line_of(op="lease_create", id=f"l{at}") for at in range(65)]
    lines += [line_of(op="lease_add", id="l0", digest=digest_of(at.to_bytes(2, "big"))) for at in range(65)]
    lines += [line_of(op="remove", digest=digest_of(b"\0\xff")), line_of(op="put", hex=data.hex())]
    lines += [line_of(op="create", id=f"t{at}", config=config_of(digest)) for at in range(65)]
    lines += [line_of(op="break", id="t0", func=0, place=at) for at in range(33)]
    lines += [line_of(op="start", id="t0"), line_of(op="inspect", id="t0"), line_of(op="gc"),
              line_of(op="delete", id="t1")]
    compare(report, "a full table", lines, [board.answer(line) for line in lines], session.ask_all(lines))
    report.add("lines over full tables", len(lines))
    finish(report, session)


def try_inputs(program: Path, report: Report, jobs: int) -> None:
    try_edges(program, report)
    try_full_tables(program, report)
    try_lines(program, report)
    try_put_text_lines(program, report)
    try_configs(program, report)
    try_texts(program, report)
    try_modules(program, report, jobs)
