"""The script that is answered with little memory, the model that says what each of its lines is answered, and a
client that makes room and asks again where memory ran out."""
from __future__ import annotations

import json
from dataclasses import dataclass, field

from suite.reference.board import Board
from suite.trials.modules import (DROP, EXIT, I32, WRITE, block, call, code, digest_of, func_type, i32, i64, limits, program,
                                  sized, vector)
from suite.trials.program import NO_MEMORY, Session, agree, config_of, line_of

PAGES = 256
# A text, and the bytes that it denotes: the shortest form of what it says.
TEXT = '(module (type $v (func)) (func $s (type $v) nop) (export "_start" (func $s)))'
BYTES_OF_TEXT = program(b"\x01")
# A module that never ends.
LOOP = program(block(b"\x0c\0", opcode=3))


def grows(pages: int, config: int | None = None) -> tuple[bytes, int | None]:
    """A module that grows its memory page by page, writes into each, and exits with the number of pages that it
    has; and the limit of its config in bytes."""
    grown = i32(1) + b"\x40\0" + i32(-1) + b"\x47"
    touched = b"\x3f\0" + i32(1) + b"\x6b" + i32(16) + b"\x74" + i32(7) + b"\x3a\0\0"
    body = block(grown + b"\x04\x40" + touched + b"\x0c\1" + b"\x0b", opcode=3)
    data = program(body + b"\x3f\0" + call(0), [EXIT], memory=limits(0))
    return data, config if config is not None else pages * 65_536


def writes(count: int, size: int) -> bytes:
    """A module that writes to its standard output `count` times `size` bytes."""
    buffer = (8).to_bytes(4, "little") + size.to_bytes(4, "little") + b"x" * size
    body = i32(count) + b"\x21\0" + block(i32(1) + i32(0) + i32(1) + i32(1_000) + call(0) + DROP + b"\x20\0" + i32(1)
                                          + b"\x6b\x22\0\x0d\0", opcode=3)
    segment = b"\0" + i32(0) + b"\x0b" + sized(buffer)
    return program(body, [WRITE], [(1, I32)], memory=limits(1), more={11: vector([segment])})


def long_code(size: int) -> bytes:
    """A module of about this many bytes, which exits with 7 at once."""
    return program(i32(7) + call(0) + (i64(1) + DROP) * ((size - 90) // 3), [EXIT])


def calls_itself(frames: int) -> bytes:
    """A module whose entry calls a function that has this many frames at most, and then exits with 3."""
    kind = func_type((I32,), ())
    again = b"\x20\0" + b"\x04\x40" + b"\x20\0" + i32(1) + b"\x6b" + call(2) + b"\x0b"
    return program(i32(frames - 2) + call(2) + i32(3) + call(0), [EXIT], types=[kind], functions=[(1, code(again))])


def small_script() -> list[bytes]:
    """Each request at least once, most of them accepted, some refused."""
    seven, stack = long_code(100), calls_itself(10)
    wide, out = program(b"\x01" * 30), writes(4, 16)
    grow, limit = grows(3)
    first, last = digest_of(seven), digest_of(stack)
    return [
        line_of(op="put", hex=seven.hex()), line_of(op="put", hex=seven.hex()), line_of(op="put", hex=stack.hex()),
        line_of(op="put", hex=wide.hex()), line_of(op="put", hex=out.hex()), line_of(op="put", hex=grow.hex()),
        line_of(op="put_text", text=TEXT), line_of(op="put_text", text="(module"),
        line_of(op="lease_create", id="l"), line_of(op="lease_create", id="l"),
        line_of(op="lease_add", id="l", digest=first), line_of(op="lease_add", id="l", digest=first),
        line_of(op="remove", digest=first), line_of(op="remove", digest=digest_of(wide)), line_of(op="gc"),
        line_of(op="put", hex=out.hex()), line_of(op="put", hex=grow.hex()), line_of(op="put", hex=stack.hex()),
        line_of(op="put_text", text=TEXT),
        *task("a", first), *task("t", digest_of(BYTES_OF_TEXT)), *task("o", digest_of(out)),
        line_of(op="output", id="o", stream=1), line_of(op="output", id="o", stream=2),
        *task("g", digest_of(grow), limit=limit), line_of(op="peek", id="g", address=131_072, length=4),
        line_of(op="create", id="s", config=config_of(last)), line_of(op="create", id="s", config=config_of(last)),
        line_of(op="break", id="s", func=2, place=1), line_of(op="break", id="s", func=1, place=0),
        line_of(op="break", id="s", func=9, place=0), line_of(op="start", id="s"), line_of(op="inspect", id="s"),
        line_of(op="step", id="s", count=20), line_of(op="inspect", id="s"),
        line_of(op="unbreak", id="s", func=2, place=1), line_of(op="resume", id="s"), line_of(op="wait", id="s"),
        line_of(op="state", id="s"), line_of(op="delete", id="s"),
        line_of(op="put", hex=LOOP.hex()), line_of(op="create", id="loop", config=config_of(digest_of(LOOP))),
        line_of(op="start", id="loop"), line_of(op="state", id="loop"), line_of(op="pause", id="loop"),
        line_of(op="wait", id="loop"), line_of(op="kill", id="loop", signal=9), line_of(op="delete", id="loop"),
        line_of(op="create", id="b", config="{"), line_of(op="create", id="b", config=config_of(digest_of(b"x"))),
        line_of(op="kill", id="a", signal=9), line_of(op="delete", id="a"), line_of(op="delete", id="a"),
        b"no request", b"", line_of(op="lease_delete", id="l"), line_of(op="lease_delete", id="l"), line_of(op="gc"),
    ]


def small_replay() -> list[bytes]:
    """The same with a slice before each wait, for a replay."""
    lines = []
    for line in small_script():
        request = json.loads(line) if line.startswith(b"{") else {}
        if request.get("op") == "wait":
            lines += [line_of(op="take", id=request["id"], budget=1_000), line_of(op="return", id=request["id"])]
        lines.append(line)
    return lines


def task(name: str, digest: str, limit: int | None = None, more: tuple[bytes, ...] = ()) -> list[bytes]:
    """Creates a task, starts it and waits for its end."""
    return [line_of(op="create", id=name, config=config_of(digest, limit)), line_of(op="start", id=name),
            line_of(op="wait", id=name), *more]


def large_script() -> list[bytes]:
    """Modules of several sizes, put and run to their ends one after another, and then many tasks at once."""
    lines = []
    for at, size in enumerate([100, 4_000, 60_000, 200_000]):
        data = long_code(size)
        lines += [line_of(op="put", hex=data.hex()), *task(f"s{at}", digest_of(data)),
                  line_of(op="inspect", id=f"s{at}"), line_of(op="delete", id=f"s{at}")]
    for name, (data, limit) in {"o": (writes(1_100, 64), None), "c": (calls_itself(1_024), None), "g": grows(16),
                                "h": grows(PAGES)}.items():
        lines += [line_of(op="put", hex=data.hex()), *task(name, digest_of(data), limit),
                  line_of(op="output", id=name, stream=1), line_of(op="delete", id=name)]
    small, (data, limit) = long_code(100), grows(16)
    for at in range(12):
        lines += [*task(f"m{at}", digest_of(data), limit), *task(f"n{at}", digest_of(small))]
    return [*lines, *(line_of(op="delete", id=f"{kind}{at}") for at in range(12) for kind in "mn"), line_of(op="gc")]


class Model:
    """What lines are answered, by the second reading, if there is memory."""

    def __init__(self, in_replay: bool = False) -> None:
        self.board = Board(in_replay)

    def answer(self, line: bytes) -> bytes:
        """The reply, if there is memory. Of the texts of put_text it knows two: TEXT, and one that is none."""
        try:
            request = json.loads(line)
        except ValueError:
            request = {}
        if request.get("op") == "put_text" and request["text"] != TEXT:
            return b'{"column":8,"error":"BadText","line":1,"number":18,"ok":false}'
        is_text = request.get("op") == "put_text"
        reply: bytes = self.board.answer(line_of(op="put", hex=BYTES_OF_TEXT.hex()) if is_text else line)
        return reply


@dataclass
class Talk:
    """What came of a script that was asked line by line. `place`: the number of the line at which the program ended."""

    asked: int = 0
    refused: int = 0
    place: int | None = None
    differing: list[tuple[bytes, bytes, bytes]] = field(default_factory=list)
    # Lines that were refused for memory, also after all else was deleted.
    too_large: list[bytes] = field(default_factory=list)
    taken_after: int = 0


def ask_again(session: Session, talk: Talk, model: Model, line: bytes) -> bytes | None:
    """Asks a line whose answer was NoMemory again: after all tasks are deleted, and then after all contents that it
    does not need are removed too."""
    for lines in (deletes(model), removals(model, line)):
        for other in lines:
            ask_one(session, talk, model, other)
        reply = session.ask(line)
        talk.asked += 1
        if reply != NO_MEMORY:
            talk.taken_after += 1
            return reply
    talk.too_large.append(line)
    return None


def ask_one(session: Session, talk: Talk, model: Model, line: bytes) -> None:
    """Asks a line that makes room. It is read as JSON, and so may itself be refused for memory."""
    reply = session.ask(line)
    talk.asked += 1
    if reply == NO_MEMORY:
        talk.refused += 1
    elif reply is not None and not agree(line, wanted := model.answer(line), reply):
        talk.differing.append((line, wanted, reply))


def deletes(model: Model) -> list[bytes]:
    """Lines that end and delete all tasks; none of them takes memory once it is read. A task that was started ends
    by itself."""
    found = []
    for name, task_ in model.board.tasks.items():
        if task_.end is None:
            is_running = task_.status == "running"
            found.append(line_of(op="wait", id=name) if is_running else line_of(op="kill", id=name, signal=9))
        found.append(line_of(op="delete", id=name))
    return found


def removals(model: Model, line: bytes) -> list[bytes]:
    """Lines that remove all contents but the one that a line names."""
    return [line_of(op="remove", digest=digest) for digest in model.board.contents if digest.encode() not in line]


def talk_to(session: Session, lines: list[bytes]) -> Talk:
    """Asks lines one after another, and compares each reply with the model's. A line that is refused for memory is
    asked again, after room was made."""
    talk, model = Talk(), Model()
    for at, line in enumerate(lines):
        reply = session.ask(line)
        talk.asked += 1
        if reply == NO_MEMORY:
            talk.refused += 1
            reply = ask_again(session, talk, model, line)
            if reply is None and talk.too_large[-1:] == [line]:
                continue
        if reply is None:
            talk.place = at
            return talk
        if not agree(line, wanted := model.answer(line), reply):
            talk.differing.append((line, wanted, reply))
    return talk
