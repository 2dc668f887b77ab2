"""Hostile modules that run: each fault at its limit, much memory, much output, and loops on all slots. What each
comes to is worked out here, by the counts of instructions, and by the second reading."""
from __future__ import annotations

import json
import random
import signal
import sys
import time
from collections.abc import Iterator
from dataclasses import dataclass
from pathlib import Path
from typing import Any

from suite.reference import wasm
from suite.reference.board import Board, line_of as reply_of
from suite.reference.execute import Machine
from suite.trials import scripts, waits
from suite.trials.modules import (DROP, END, EXIT, I32, I64, NOP, UNREACHABLE, WRITE, block, call, code, digest_of, func_type,
                                  i32, i64, leb, limits, program, sized, vector)
from suite.trials.program import Report, Session, agree, config_of, line_of, replay
from suite.trials.scripts import LOOP

PAGE, MOST_PAGES, MOST_TASKS = 65_536, 256, 64
TRAP = {"cause": "trap", "exit": 134}
RETURN = {"cause": "return", "exit": 0}
# The most turns that the second reading makes of a case, too.
MOST_TURNS = 1_000_000


@dataclass
class Case:
    """A module, how its task ends after how many turns, what it writes, and its config."""

    name: str
    data: bytes
    end: dict[str, Any]
    turns: int
    written: int = 0
    limit: int | None = None
    args: tuple[str, ...] = ("a",)


def trap(name: str) -> dict[str, Any]:
    return {**TRAP, "trap": name}


def exit_(number: int) -> dict[str, Any]:
    return {"cause": "exit", "exit": number}


def value(kind: int) -> bytes:
    return i32(-1) if kind == I32 else i64(-1)


def word(number: int) -> bytes:
    """An i32 of 32 bits without a sign."""
    return i32(number - 2**32 if number >= 2**31 else number)


def accesses() -> Iterator[Case]:
    """Each load and store of the last bytes of a page, and of one byte more, for four ways to write its address."""
    outside = trap("out of bounds memory access")
    for opcode, (kind, count) in (wasm.LOADS | wasm.STORES).items():
        is_load = opcode in wasm.LOADS
        end = PAGE - count
        for address, offset in [(end, 0), (0, end), (end - 9, 9), (end + 1, 0), (0, end + 1), (end - 9, 10), (PAGE, 0),
                                (2**32 - 1, 0), (0, 2**32 - 1), (2**32 - 1, 2**32 - 1), (1, 2**32 - 1)]:
            body = word(address) + (b"" if is_load else value(kind)) + bytes([opcode]) + b"\0" + leb(offset)
            is_inside = address + offset <= end
            yield Case(f"opcode {opcode:#x} at {address} with offset {offset}",
                       program(body + DROP * is_load, memory=limits(1)), RETURN if is_inside else outside,
                       3 if is_inside or not is_load else 2)


def tables() -> Iterator[Case]:
    """A table of four entries: two functions of other types, one of the type, and one that no segment writes."""
    kind = func_type((I32,), (I32,))
    segment = {9: vector([b"\0" + i32(0) + END + vector([leb(1), leb(2), leb(1)])])}
    ends = {0: (RETURN, 3), 1: (trap("indirect call type mismatch"), 2), 2: (RETURN, 3),
            3: (trap("uninitialized element"), 2)}
    ends |= {index: (trap("undefined element"), 2) for index in (4, 2**31, 2**32 - 1)}
    for index, (end, turns) in ends.items():
        data = program(word(index) + b"\x11\0\0", types=[kind], table=limits(4), more=segment,
                       functions=[(0, code(NOP)), (1, code(b"\x20\0"))])
        yield Case(f"call_indirect with index {index}", data, end, turns)


def divisions() -> Iterator[Case]:
    for kind, const, first in ((I32, i32, 0x6D), (I64, i64, 0x7F)):
        least = -2**31 if kind == I32 else -2**63
        for opcode in range(first, first + 4):
            operator = bytes([opcode]) + DROP
            yield Case(f"opcode {opcode:#x} by 0", program(const(7) + const(0) + operator),
                       trap("integer divide by zero"), 3)
            overflows = opcode == first
            yield Case(f"opcode {opcode:#x} of the least number by -1", program(const(least) + const(-1) + operator),
                       trap("integer overflow") if overflows else RETURN, 3 if overflows else 4)


def exhaustion() -> Iterator[Case]:
    """As many frames and values as there may be, and one more."""
    exhausted = trap("exhausted")
    yield Case("1,024 frames", scripts.calls_itself(1_024), exit_(3), 6 * 1_022 + 6)
    yield Case("1,025 frames", scripts.calls_itself(1_025), exhausted, 6 * 1_023 + 2)
    for count in (65_536, 65_537):
        body = i32(0) * count + DROP * count
        end = (RETURN, 2 * count) if count == 65_536 else (exhausted, count)
        yield Case(f"{count:,} operands", program(body), *end)
    yield Case("frames of 1,024 locals", program(call(0), runs=[(1_024, I64)]), exhausted, 64)
    most = [func_type((), [I32] * 1_024)]
    gives = program(call(1) * 64 + UNREACHABLE, types=most, functions=[(1, code(i32(1) * 1_024))])
    yield Case("65,536 results", gives, trap("unreachable"), 64 * 1_025 + 1)
    more = program(call(1) * 64 + i32(1) + UNREACHABLE, types=most, functions=[(1, code(i32(1) * 1_024))])
    yield Case("65,537 results", more, exhausted, 64 * 1_025 + 1)
    yield Case("unreachable", program(UNREACHABLE), trap("unreachable"), 1)
    yield Case("an endless recursion without locals", program(call(0)), exhausted, 1_024)


def memories() -> Iterator[Case]:
    """Memory that grows page by page to its cap, and the last byte that there may be."""
    for limit, pages in ((None, 16), (0, 0), (PAGE - 1, 0), (PAGE, 1), (MOST_PAGES * PAGE, 256), (2**64 - 1, 256)):
        yield Case(f"grow to the cap of {limit}", scripts.grows(0)[0], exit_(pages), 14 * pages + 8, limit=limit)
    last = MOST_PAGES * PAGE - 1
    grown = i32(MOST_PAGES) + b"\x40\0" + DROP
    for address, end, turns in ((last, RETURN, 6), (last + 1, trap("out of bounds memory access"), 6)):
        data = program(grown + i32(address) + i32(1) + b"\x3a\0\0", memory=limits(0))
        yield Case(f"a byte at {address:,}", data, end, turns, limit=2**40)
    for pages, number in ((257, 2**32 - 1), (2**32 - 1, 2**32 - 1), (256, 0)):
        data = program(word(pages) + b"\x40\0" + call(0), [EXIT], memory=limits(0))
        yield Case(f"grow by {pages:,} pages", data, exit_(number), 3, limit=2**40)


def outputs() -> Iterator[Case]:
    """Streams up to their last byte, and a write to a full one."""
    yield Case("65,536 writes of a byte", scripts.writes(65_536, 1), RETURN, 2 + 12 * 65_536, written=65_536)
    yield Case("65,537 writes of a byte", scripts.writes(65_537, 1), RETURN, 2 + 12 * 65_537, written=65_536)
    buffers = b"".join(number.to_bytes(4, "little") for number in (0, PAGE, 0, PAGE))
    for count, number in ((1, 51), (2, 51)):
        body = (i32(1) + i32(PAGE) + i32(count) + i32(PAGE + 64) + call(0) + DROP) + (
            i32(1) + i32(PAGE) + i32(1) + i32(PAGE + 64) + call(0) + call(1))
        data = program(body, [WRITE, EXIT], memory=limits(2),
                       more={11: vector([b"\0" + i32(PAGE) + END + sized(buffers)])})
        yield Case(f"a full stream after {count} buffers", data, exit_(number), 12, written=65_536)


def arguments() -> Iterator[Case]:
    """Arguments of 65,536 bytes together, which end at memory's end, or one byte later."""
    host = (b"args_get", (I32, I32), (I32,))
    args = ("x" * (65_536 - 64 - 62), *[""] * 62)
    assert sum(len(arg) + 1 for arg in args) == 65_536 - 63
    size = sum(len(arg) + 1 for arg in args)
    for at, number in ((2 * PAGE - size, 0), (2 * PAGE - size + 1, 21)):
        data = program(i32(0) + i32(at) + call(0) + call(1), [host, EXIT], memory=limits(2))
        yield Case(f"arguments at {at}", data, exit_(number), 4, args=args)


def cases() -> list[Case]:
    makers = (accesses, tables, divisions, exhaustion, memories, outputs, arguments)
    return [case for maker in makers for case in maker()]


def try_cases(program_: Path, report: Report) -> None:
    """Each module is run to its end in `serve`, and in a replay in slices of random budgets."""
    session = Session(program_)
    for case in cases():
        check_with_reading(report, case)
        digest = digest_of(case.data)
        ended = reply_of({**case.end, "id": "a", "n": case.turns, "ok": True, "status": "stopped"})
        create = line_of(op="create", id="a", config=config_of(digest, case.limit, case.args))
        lines = [line_of(op="put", hex=case.data.hex()), create, line_of(op="start", id="a"),
                 line_of(op="wait", id="a"), line_of(op="output", id="a", stream=1), line_of(op="delete", id="a"),
                 line_of(op="gc")]
        replies = session.ask_all(lines)
        report.add("modules run to their ends")
        if len(replies) < len(lines) or replies[3] != ended or replies[5] != ended:
            found = next((reply for reply in replies[3:] if reply != ended), None)
            report.differ(case.name, b"\n".join(lines[:4]), ended, found if len(replies) == len(lines) else None)
        elif f'"size":{case.written}}}'.encode() not in replies[4]:
            report.differ(f"{case.name}: output", b"\n".join(lines[:5]), str(case.written).encode(), replies[4][-80:])
        if len(replies) < len(lines):
            session = Session(program_)
            continue
        if case.turns <= 20_000:
            try_slices(program_, report, case, lines, ended)
    status, told = session.close()
    if status or told:
        report.fault(f"serve ended with status {status}, and {told!r}")


def check_with_reading(report: Report, case: Case) -> None:
    """The second reading has to come to what is worked out here."""
    if case.turns > MOST_TURNS:
        return
    cap = wasm.PAGE_CAP if case.limit is None else min(case.limit // PAGE, MOST_PAGES)
    machine = Machine(wasm.Decoder(case.data).module(), cap, case.args)
    machine.run(case.turns + 1)
    found = machine.end, machine.turns, len(machine.streams[1])
    if found != (case.end, case.turns, case.written):
        report.fault(f"{case.name}: the second reading has {machine.end} after {machine.turns} turns, "
                     f"{len(machine.streams[1])} bytes")


def try_slices(program_: Path, report: Report, case: Case, lines: list[bytes], ended: bytes) -> None:
    """The same in a replay, in slices of random budgets."""
    budgets, left = [], case.turns
    while left > 0:
        budgets.append(random.choice([1, 7, 100, 3_000, 1_000_000]))
        left -= budgets[-1]
    return_ = line_of(op="return", id="a")
    slices = [line for budget in budgets for line in (line_of(op="take", id="a", budget=budget), return_)]
    answers = replay(program_, [*lines[:3], *slices, line_of(op="state", id="a")])
    report.add("modules run in slices")
    if answers[-1:] != [ended]:
        found = answers[-1] if answers else None
        report.differ(f"{case.name}, in slices of {budgets}", b"\n".join(lines[:3]), ended, found)


# --- loops on all slots ---

def loops_in_replay() -> tuple[list[bytes], list[bytes]]:
    """Loops on all 64 slots, taken and returned in random order, some killed while they are out; others are created in
    their places, end and are deleted. The lines, and what they are answered by the counts of turns."""
    seven = scripts.long_code(100)
    lines, wanted = [], []
    turns: dict[str, int] = {}

    def say(reply: dict[str, Any], **members: Any) -> None:
        lines.append(line_of(**members))
        wanted.append(reply_of(reply))

    def begin(name: str, data: bytes) -> None:
        say({"id": name, "ok": True, "status": "created"}, op="create", id=name, config=config_of(digest_of(data)))
        say({"id": name, "ok": True, "status": "running"}, op="start", id=name)
        turns[name] = 0

    for data in (LOOP, seven):
        say({"digest": digest_of(data), "ok": True, "size": len(data)}, op="put", hex=data.hex())
    for at in range(MOST_TASKS):
        begin(f"t{at}", LOOP)
    full = {"error": "TooMany", "number": 14, "ok": False}
    for at in range(40):
        say(full, op="create", id="one-more", config=config_of(digest_of(LOOP)))
        names = random.sample(list(turns), MOST_TASKS)
        budgets = {name: random.choice([1, 2, 50, 999]) for name in names}
        for name in names:
            say({"ok": True, "taken": True}, op="take", id=name, budget=budgets[name])
        for name in names[:5]:
            say({"id": name, "n": turns[name], "ok": True, "status": "running"}, op="state", id=name)
            say({"ok": True, "taken": False}, op="take", id=name, budget=1)
        killed = set(names[:3])
        for name in killed:
            say({"id": name, "ok": True, "status": "running"}, op="kill", id=name, signal=15)
        random.shuffle(names)
        for name in names:
            say({"ok": True, "returned": True}, op="return", id=name)
            turns[name] += budgets[name]
        for name in sorted(killed):
            say({"cause": "kill", "exit": 143, "id": name, "n": turns.pop(name), "ok": True, "signal": 15,
                 "status": "stopped"}, op="delete", id=name)
            other = f"s{at}-{name}"[:64]
            begin(other, seven)
            say({"ok": True, "taken": True}, op="take", id=other, budget=10)
            say({"ok": True, "returned": True}, op="return", id=other)
            del turns[other]
            say({"cause": "exit", "exit": 7, "id": other, "n": 2, "ok": True, "status": "stopped"}, op="delete",
                id=other)
            begin(name, LOOP)
    for name, count in turns.items():
        say({"id": name, "n": count, "ok": True, "status": "running"}, op="state", id=name)
    return lines, wanted


def loops_in_serve() -> list[bytes]:
    """Loops on all slots that are started, paused, stepped, killed and deleted, while others come and go."""
    seven = scripts.long_code(100)
    lines = [line_of(op="put", hex=data.hex()) for data in (LOOP, seven)]
    config = config_of(digest_of(LOOP))
    begun = [[line_of(op="create", id=f"loop{at}", config=config), line_of(op="start", id=f"loop{at}")]
             for at in range(MOST_TASKS)]
    lines += [line for two in begun for line in two]
    for at in range(400):
        number = random.randrange(MOST_TASKS)
        name = f"loop{number}"
        lines += [line_of(op="create", id="more", config=config), line_of(op="pause", id=name),
                  line_of(op="wait", id=name), line_of(op="step", id=name, count=random.randint(1, 1_000)),
                  line_of(op="inspect", id=name)]
        if at % 4:
            lines.append(line_of(op="resume", id=name))
            continue
        lines += [line_of(op="resume", id=name), line_of(op="kill", id=name, signal=9), line_of(op="wait", id=name),
                  line_of(op="delete", id=name), *scripts.task("seven", digest_of(seven)),
                  line_of(op="delete", id="seven"), *begun[number]]
    return lines


def check_turns(report: Report, lines: list[bytes], answers: list[bytes]) -> None:
    """Of loops that were paused: a step makes just its turns, a frame is at the place of its number of turns, and
    between two pauses the turns grow."""
    turns: dict[str, int] = {}
    for line, answer in zip(lines, answers):
        request, told = json.loads(line), json.loads(answer)
        name, op = request.get("id", ""), request["op"]
        if not name.startswith("loop") or not told["ok"]:
            continue
        if op == "create":
            turns[name] = 0
        if op == "step":
            turns[name] += request["count"]
        wanted = turns[name]
        if op in ("wait", "delete"):
            turns[name] = told["n"]
            report.add("times that a loop was waited for")
        if ("n" in told and told["n"] != wanted and op in ("step", "inspect")) or turns[name] < wanted:
            report.differ("the turns of a loop", line, str(wanted).encode(), answer)
        if op == "inspect" and told["frames"] != [frame_of_loop(wanted)]:
            report.differ("the frame of a loop", line, json.dumps(frame_of_loop(wanted)).encode(), answer)


def frame_of_loop(turns: int) -> dict[str, Any]:
    """Where the loop is: before its `loop`, or in it before its branch."""
    inside = turns % 2 == 1
    return {"func": 0, "labels": [0] * inside, "locals": [], "next": int(inside), "operands": []}


def try_loops(program_: Path, report: Report) -> None:
    lines, wanted = loops_in_replay()
    answers = replay(program_, lines)
    report.add("lines of a replay with loops on all slots", len(lines))
    check_all(report, "loops in a replay", lines, wanted, answers)
    lines, board = loops_in_serve(), Board(False)
    for workers in (1, 2):
        session = Session(program_, ("serve", "--workers", str(workers)))
        answers = session.ask_all(lines)
        report.add("lines of serve with loops on all slots", len(lines))
        wanted = [board.answer(line) for line in lines]
        check_all(report, f"loops in serve with {workers} workers", lines, wanted, answers)
        check_turns(report, lines, answers)
        status, told = session.close()
        if status or told:
            report.fault(f"serve with {workers} workers ended with status {status}, and {told!r}")
        board = Board(False)
    for number in (signal.SIGTERM, signal.SIGINT, signal.SIGHUP):
        try_signal(program_, report, number)


def check_all(report: Report, what: str, lines: list[bytes], wanted: list[bytes], answers: list[bytes]) -> None:
    if len(answers) != len(lines):
        report.fault(f"{what}: {len(answers)} answers to {len(lines)} lines")
    for line, want, found in zip(lines, wanted, answers):
        if not agree(line, want, found):
            report.differ(what, line, want, found)
            return


def try_signal(program_: Path, report: Report, number: signal.Signals) -> None:
    """A signal ends a `serve` that waits for a loop, within a second. A signal that this tool was told to ignore, as by
    nohup, would be ignored by the program too."""
    before = signal.signal(number, signal.SIG_DFL)
    session = Session(program_)
    signal.signal(number, before)
    lines = [line_of(op="put", hex=LOOP.hex()), *scripts.task("a", digest_of(LOOP))]
    session.ask_all(lines[:-1])
    session.send(lines[-1:])
    time.sleep(0.2)
    begun = time.monotonic()
    session.process.send_signal(number)
    status, told = session.close(seconds=5)
    seconds = time.monotonic() - begun
    report.add("signals to a serve that waits for a loop")
    if status != -number or told or seconds > 1:
        report.fault(f"{number.name}: status {status} after {seconds:.1f} s, {told!r} on standard error")


# --- turns that take long ---

def long_turns() -> dict[str, tuple[bytes, int]]:
    """Modules of which one kind of turn takes long, and how often it comes. They end by themselves."""
    times = 100
    counted = i32(times) + b"\x21\0"
    again = b"\x20\0" + i32(1) + b"\x6b\x22\0\x0d\0"
    buffers = MOST_PAGES * PAGE // 8
    written = i32(1) + i32(0) + i32(buffers) + i32(0) + call(0) + DROP
    wide = [func_type((), [I32] * 1_024)]
    carried = block(i32(1) * 1_024 + b"\x0c\0", b"\x01") + DROP * 1_024
    zeros = program(counted + block(written + again, opcode=3), [WRITE], [(1, I32)], memory=limits(MOST_PAGES))
    locals_ = program(counted + block(call(1) + again, opcode=3), runs=[(1, I32)],
                      functions=[(0, code(b"", [(1_024, I64)]))])
    return {
        "fd_write of 2,097,152 buffers": (zeros, times),
        "a branch that takes 1,024 values": (program(counted + block(carried + again, opcode=3), runs=[(1, I32)],
                                                     types=wide), times),
        "a call of a function with 1,024 locals": (locals_, times),
        "a growth by 256 pages": (program(i32(MOST_PAGES) + b"\x40\0" + DROP, memory=limits(0)), 1),
    }


def try_long_turns(program_: Path, report: Report) -> None:
    """Prints the processor time of the longest turns; no document bounds it."""
    for name, (data, times) in long_turns().items():
        session = Session(program_)
        config = config_of(digest_of(data), 2**40)
        session.ask_all([line_of(op="put", hex=data.hex()), line_of(op="create", id="a", config=config),
                         line_of(op="start", id="a")])
        begun = session.used()
        reply = session.ask(line_of(op="wait", id="a"))
        seconds = session.used() - begun
        if reply is None or b'"cause":"return"' not in reply:
            report.fault(f"{name}: {reply!r}")
        report.add("kinds of long turns")
        print(f"{name}: {seconds / times * 1e6:,.1f} microseconds each")
        session.close()
    sys.stdout.flush()


def try_runs(program_: Path, report: Report) -> None:
    try_cases(program_, report)
    try_loops(program_, report)
    try_long_turns(program_, report)
    waits.try_waits(program_, report)
