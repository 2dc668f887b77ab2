"""How long one hostile module holds up others: by turns, a create and an inspect that take long. No document bounds it,
so it is printed."""
from __future__ import annotations

import json
import sys
import time
from pathlib import Path

from suite.trials import scripts, shapes
from suite.trials.modules import I32, NOP, WRITE, block, call, code, digest_of, func_type, i32, limits, program
from suite.trials.program import Report, Session, config_of, line_of
from suite.trials.scripts import LOOP

# Bytes of a page, and the pages of a memory whose config has no limit.
PAGE, PAGES = 65_536, 16


def writes_nothing(pages: int, is_written: bool) -> bytes:
    """A module that calls fd_write for ever, with as many buffers of no bytes as its memory has room for. A branch to
    the loop drops the results, so every fifth turn is such a call. Buffers in memory to which nothing was written take
    longer to read: a zero in the last byte writes all before it."""
    buffers = pages * PAGE // 8
    zero = i32(pages * PAGE - 1) + i32(0) + b"\x3a\0\0"
    once = i32(1) + i32(0) + i32(buffers) + i32(0) + call(0)
    return program(zero * is_written + block(once * 60 + b"\x0c\0", opcode=3), [WRITE], memory=limits(pages))


def turns_of(session: Session, name: str) -> int:
    turns: int = json.loads(session.ask(line_of(op="state", id=name)) or b'{"n":0}')["n"]
    return turns


def slice_seconds(session: Session, name: str, workers: int, count: int = 3) -> float:
    """The processor time of a slice of a task that runs, as others like it do on all workers: the mean of this number
    of slices. A task's turns are counted at the end of a slice."""
    turns, used = turns_of(session, name), list[float]()
    while len(used) <= count and session.has_room(1_000):
        now = turns_of(session, name)
        if now != turns:
            turns = now
            used.append(session.used())
        time.sleep(0.01)
    return (used[-1] - used[0]) / count / workers if len(used) > count else 0.0


def try_slices(program_: Path, report: Report, workers: int, is_written: bool) -> None:
    """A task that makes long turns for each worker: how long its slices take, how long a short task waits for its end,
    and a kill for its effect."""
    data, short = writes_nothing(PAGES, is_written), scripts.long_code(100)
    session = Session(program_, ("serve", "--workers", str(workers)))
    session.ask_all([line_of(op="put", hex=data.hex()), line_of(op="put", hex=short.hex())])
    for at in range(workers):
        create = line_of(op="create", id=f"long{at}", config=config_of(digest_of(data)))
        session.ask_all([create, line_of(op="start", id=f"long{at}")])
    seconds = slice_seconds(session, "long0", workers)
    times, killed = [], [line_of(op="kill", id="long0", signal=9), line_of(op="wait", id="long0")]
    for lines in (scripts.task("short", digest_of(short)), killed):
        begun = time.monotonic()
        replies = session.ask_all(lines)
        times.append(time.monotonic() - begun)
        if len(replies) < len(lines) or b'"stopped"' not in replies[-1]:
            report.fault(f"beside long turns: {lines[-1]!r} is answered {replies[-1:]!r}")
    session.process.kill()
    session.close()
    report.add("waits beside tasks of long turns", 2)
    memory = "memory that is written" if is_written else "memory that is not written"
    print(f"on each of {workers} workers a task that calls fd_write with {PAGES * PAGE // 8:,} buffers in {memory}: a "
          f"slice takes {seconds:.2f} s of the processor, a short task ends after {times[0]:.2f} s, and a kill has its "
          f"effect after {times[1]:.2f} s; it is 16 times as long with the most memory that a config allows")


def try_create(program_: Path, report: Report) -> None:
    """A task that never ends, and a create that takes long: the turns of the one during the other."""
    data = shapes.labels_of_loops(shapes.MODULE_BYTES)
    session = Session(program_, ("serve", "--workers", "2"))
    session.ask_all([line_of(op="put", hex=LOOP.hex()), line_of(op="put", hex=data.hex()),
                     line_of(op="create", id="l", config=config_of(digest_of(LOOP))), line_of(op="start", id="l")])
    time.sleep(0.1)
    state, create = line_of(op="state", id="l"), line_of(op="create", id="a", config=config_of(digest_of(data)))
    before = session.ask(state)
    time.sleep(0.2)
    begun = time.monotonic()
    replies = session.ask_all([state, create, state])
    seconds = time.monotonic() - begun
    session.process.kill()
    session.close()
    if before is None or len(replies) < 3:
        report.fault("no reply to a create that takes long")
        return
    turns = [json.loads(reply)["n"] for reply in (before, replies[0], replies[2])]
    report.add("creates that take long beside a task")
    print(f"a create over a module of {len(data):,} bytes takes {seconds:.2f} s, in which a running task makes "
          f"{(turns[2] - turns[1]) / seconds:,.0f} turns a second; before it made {(turns[1] - turns[0]) / 0.2:,.0f}")


def calls_itself_from_many_places(bytes_before: int, levels: int = 1_000) -> bytes:
    """A module whose function calls itself from another place at each level, after that many bytes, and then loops."""
    body = NOP * bytes_before
    for level in range(1, levels + 1):
        body += b"\x20\0" + i32(level) + b"\x46" + block(b"\x20\0" + i32(1) + b"\x6b" + call(1), opcode=4)
    body += b"\x20\0" + b"\x45" + block(block(b"\x0c\0", opcode=3), opcode=4)
    return program(i32(levels) + call(1), types=[func_type((I32,), ())], functions=[(1, code(body))])


def try_inspect(program_: Path, report: Report) -> None:
    """An inspect of a task with a thousand frames, each at another place of a long function."""
    data, session = calls_itself_from_many_places(10_000), Session(program_, ("serve", "--workers", "2"))
    begin = [line_of(op="put", hex=data.hex()), line_of(op="create", id="a", config=config_of(digest_of(data))),
             line_of(op="start", id="a")]
    session.ask_all(begin)
    # All levels take less turns than this: a level has its bytes before, and four turns for each place that it passes.
    most = 1_000 * (10_000 + 4 * 1_000)
    while json.loads(session.ask(line_of(op="state", id="a")) or b'{"n":1e9}')["n"] < most:
        time.sleep(0.1)
    session.ask_all([line_of(op="pause", id="a"), line_of(op="wait", id="a")])
    begun = time.monotonic()
    reply = session.ask(line_of(op="inspect", id="a"))
    seconds = time.monotonic() - begun
    session.process.kill()
    session.close()
    frames = 0 if reply is None else len(json.loads(reply)["frames"])
    if frames != 1_002:
        report.fault(f"an inspect of 1,002 frames has {frames}")
    report.add("inspects that take long")
    print(f"an inspect of {frames:,} frames at as many places of a module of {len(data):,} bytes takes "
          f"{seconds:.2f} s, and no other call is answered meanwhile; the time grows with the bytes before the places")


def try_waits(program_: Path, report: Report) -> None:
    for workers, is_written in ((1, True), (1, False), (2, False)):
        try_slices(program_, report, workers, is_written)
    try_inspect(program_, report)
    try_create(program_, report)
    sys.stdout.flush()
