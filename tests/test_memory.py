"""What `serve` keeps in memory, from outside: contents that no task uses, one that many tasks use, those whose tasks are
refused or deleted, and memories of tasks."""
from __future__ import annotations

import hashlib
import json
import re
import subprocess
import sys
from collections.abc import Iterable
from pathlib import Path
from typing import Any

import pytest

from suite.live import config, line_of
from suite.places import built

pytestmark = [pytest.mark.program, pytest.mark.skipif(sys.platform != "linux", reason="memory is read from /proc")]
# The instructions of a module, and how many modules there are. Opened, each takes 40 bytes for each instruction: 7.6 MB.
SIZE, COUNT = 190_000, 24
# What `serve` may take at most, in MB: no more than 1 MiB of contents stay open that no task uses. All of them would take 182.
MOST = 100
# As many tasks as there may be, and the bytes of the largest memory of one.
TASKS, LARGEST = 64, 256 * 65_536
# What all these memories may take of theirs, in MB. All of them would take 1,074. A kernel may give each 2 MiB for the first
# byte that is written, which is 134.
MOST_TOUCHED = 200


def number(of: int) -> bytes:
    """A number in LEB128."""
    out = bytearray()
    while of >= 128:
        out.append(of % 128 + 128)
        of //= 128
    return bytes([*out, of])


def section(number_of: int, content: bytes) -> bytes:
    return bytes([number_of]) + number(len(content)) + content


def module_of(bodies: list[bytes], memory: bytes = b"", data: bytes = b"", entry: bytes = b"_start") -> bytes:
    """A module of functions that take and return nothing, the first of which is exported under this name, that of an entry."""
    code = number(len(bodies)) + b"".join(number(len(body)) + body for body in bodies)
    return (b"\0asm\1\0\0\0" + section(1, b"\1\x60\0\0") + section(3, number(len(bodies)) + bytes(len(bodies))) + memory
            + section(7, b"\1" + number(len(entry)) + entry + b"\0\0") + section(10, code) + data)


def module(which: int, entry: bytes = b"_start") -> bytes:
    """A module whose entry returns at once, with a function of very many `nop` that nothing calls."""
    return module_of([b"\0\x0b", b"\0\x41" + bytes([which]) + b"\x1a" + b"\x01" * SIZE + b"\x0b"], entry=entry)


def touching() -> bytes:
    """A module with the largest memory, a byte of which a segment sets, and the entry its neighbour."""
    return module_of([b"\0\x41\0\x41\1\x3a\0\0\x0b"], section(5, b"\1\0" + number(LARGEST // 65_536)),
                     section(11, b"\1\0\x41\1\x0b\1x"))


def put(content: bytes) -> dict[str, Any]:
    return {"op": "put", "hex": content.hex()}


def create(id: str, content: bytes, memory: int | None = None) -> dict[str, Any]:
    return {"op": "create", "id": id, "config": config(f"sha256:{hashlib.sha256(content).hexdigest()}", memory)}


def resident(requests: Iterable[dict[str, Any]], refused: int | None = None) -> tuple[float, float]:
    """The most memory that `serve` has while it does what is asked, one after the other, and what it has then, in MB. Each
    create is refused with this number, if there is one, and nothing else is."""
    with subprocess.Popen([built(), "serve"], stdin=subprocess.PIPE, stdout=subprocess.PIPE) as program:
        assert program.stdin is not None and program.stdout is not None
        for request in requests:
            program.stdin.write(line_of(request))
            program.stdin.flush()
            reply = json.loads(program.stdout.readline())
            assert reply.get("number") == (refused if request["op"] == "create" else None), reply
        status = Path(f"/proc/{program.pid}/status").read_text()
    found = [re.search(rf"^{name}:\s*(\d+) kB$", status, re.MULTILINE) for name in ("VmHWM", "VmRSS")]
    most, now = (int(match[1]) / 1000 for match in found if match is not None)
    return most, now


def most_resident(requests: Iterable[dict[str, Any]], refused: int | None = None) -> float:
    return resident(requests, refused)[0]


def used(content: bytes) -> list[dict[str, Any]]:
    """Requests that put a content and run a task of it, which is deleted then."""
    return [put(content), create("a", content), *({"op": op, "id": "a"} for op in ("start", "wait", "delete"))]


def test_idle_modules_are_dropped() -> None:
    assert most_resident(request for content in map(module, range(COUNT)) for request in used(content)) < MOST


def test_idle_modules_are_dropped_beside_one_in_use() -> None:
    """The first that was opened has a task to the end."""
    first = module(COUNT)
    begin = [put(first), create("b", first), {"op": "start", "id": "b"}]
    assert most_resident([*begin, *(request for content in map(module, range(COUNT)) for request in used(content))]) < MOST


def test_modules_of_refused_creates_are_dropped() -> None:
    """They have no entry. docs/PROTOCOL.md says that a create is refused 21 then."""
    contents = (module(which, b"other") for which in range(COUNT))
    assert most_resident((request for content in contents for request in (put(content), create("a", content))), 21) < MOST


def test_modules_of_deleted_tasks_are_dropped() -> None:
    """All are in use at a time first."""
    contents = [module(which) for which in range(COUNT)]
    made = [request for at, content in enumerate(contents) for request in (put(content), create(f"t{at}", content))]
    most, now = resident([*made, *({"op": "kill", "id": f"t{at}", "signal": 9} for at in range(COUNT)),
                          *({"op": "delete", "id": f"t{at}"} for at in range(COUNT))])
    assert now < MOST < most


def test_tasks_share_a_module() -> None:
    """If each had one of its own, they would take 486 MB."""
    content = module(0)
    assert most_resident([put(content), *(create(f"t{task}", content) for task in range(TASKS))]) < MOST


def test_pages_that_no_task_touches_take_nothing() -> None:
    content, ids = touching(), [f"t{task}" for task in range(TASKS)]
    assert most_resident([put(content), *(create(id, content, LARGEST) for id in ids),
                          *({"op": op, "id": id} for op in ("start", "wait") for id in ids)]) < MOST_TOUCHED
