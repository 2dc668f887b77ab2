#!/usr/bin/env python3
"""Measures whether a slice costs more by what it does not concern: the module's size, arguments and breakpoints.

    bench/returns.py [PROGRAM] [--rounds N]

The same loop of 140 million turns runs by `serve` as a module of 96 bytes and as the same with a custom section, up to 262,144
bytes in all; with arguments of 65,536 bytes; and with 32 breakpoints in a function that does not run. A wait makes slices of
10,000 turns. The time is that of the clock, less that of the same lines without the starts and waits. Plain and changed take
turns, N rounds (15); the speed of the changed over the plain is the median of the rounds, and the least and the most are shown
beside it, and the best of all changed over the best of all plain. Prints one line for each number of workers and tasks.
"""
import hashlib
import json
import statistics
import subprocess
import tempfile
import time
from collections.abc import Iterator
from dataclasses import dataclass
from pathlib import Path

from shared import arguments, leb, sized

HEADER = b"\0asm\1\0\0\0"
TURNS = 140_000_000
IN_A_ROUND = 5
LIMIT = 262_144


def signed(number: int) -> bytes:
    """A positive number as the binary format writes a signed one."""
    groups = [number >> shift & 0x7F for shift in range(0, number.bit_length() // 7 * 7 + 1, 7)]
    return bytes(group | 0x80 for group in groups[:-1]) + bytes(groups[-1:])


def looping(size: int) -> bytes:
    """A module of this size, or of the least: its entry counts down. Its other function, of 64 instructions, never runs."""
    entry = b"\x01\x01\x7f\x41" + signed(TURNS // IN_A_ROUND) + b"\x21\0\x03\x40\x20\0\x41\x01\x6b\x22\0\x0d\0\x0b\x0b"
    idle = b"\0" + b"\x01" * 64 + b"\x0b"
    sections = ((1, b"\x01\x60\0\0"), (3, b"\x02\0\0"), (7, b"\x01\x06_start\0\0"), (10, b"\x02" + sized(entry) + sized(idle)))
    module = HEADER + b"".join(bytes([number]) + sized(part) for number, part in sections)
    spare = size - len(module)
    for front in range(2, 6):
        if spare > front and len(leb(spare - front)) == front - 1:
            return module + b"\0" + leb(spare - front) + b"\x01x" + bytes(spare - front - 2)
    return module


@dataclass(frozen=True)
class Case:
    """What is changed: the module's size, the bytes of the arguments, and how many breakpoints."""
    name: str
    size: int = 0
    arguments: int = 0
    breaks: int = 0


def lines(case: Case, tasks: int, starts: bool) -> Iterator[dict[str, object]]:
    """The requests of the first caller."""
    module = looping(case.size)
    digest = "sha256:" + hashlib.sha256(module).hexdigest()
    args = ["a"] + (["x" * (case.arguments - 4)] if case.arguments else [])
    config = {"ociVersion": "1.0.2", "process": {"args": args, "cwd": "/"}, "annotations": {"dev.shim.module": digest}}
    yield {"op": "put", "hex": module.hex()}
    names = [f"t{number}" for number in range(tasks)]
    for name in names:
        yield {"op": "create", "id": name, "config": json.dumps(config)}
        for place in range(case.breaks):
            yield {"op": "break", "id": name, "func": 1, "place": place}
    for op in ("start", "wait") if starts else ():
        for name in names:
            yield {"op": op, "id": name}


def written(path: Path, requests: Iterator[dict[str, object]]) -> str:
    """The path of a file with these requests."""
    path.write_text("".join(json.dumps(request) + "\n" for request in requests))
    return str(path)


def took(program: str, workers: int, script: str) -> float:
    """The seconds in which a script is answered."""
    begin = time.perf_counter()
    done = subprocess.run([program, "serve", "--workers", str(workers), script], stdout=subprocess.PIPE, check=True)
    seconds = time.perf_counter() - begin
    assert b'"ok":false' not in done.stdout, "a request was refused"
    return seconds


def speed(program: str, folder: Path, case: Case, workers: int, tasks: int) -> float:
    """Turns a second."""
    idle = written(folder / "idle", lines(case, tasks, False))
    busy = written(folder / "busy", lines(case, tasks, True))
    return tasks * TURNS / (took(program, workers, busy) - took(program, workers, idle))


def main() -> None:
    program, rounds = arguments(15)
    plain = Case("plain")
    cases = [
        Case("4,096 bytes", size=4_096), Case("65,536 bytes", size=65_536), Case("262,144 bytes", size=LIMIT),
        Case("arguments of 65,536 bytes", arguments=65_536), Case("32 breakpoints", breaks=32),
    ]
    print(f"{'speed over that of the plain module':36} {'workers':>8} {'tasks':>6} {'median':>8} {'least':>7} {'most':>7} "
          f"{'best':>7}")
    with tempfile.TemporaryDirectory() as name:
        folder = Path(name)
        for workers, tasks in ((1, 1), (2, 2), (4, 4), (4, 64)):
            for case in cases:
                pairs = [(speed(program, folder, case, workers, tasks), speed(program, folder, plain, workers, tasks))
                         for _ in range(rounds if tasks < 64 else 1)]
                ratios = [changed / beside for changed, beside in pairs]
                best = max(changed for changed, _ in pairs) / max(beside for _, beside in pairs)
                print(f"{case.name:36} {workers:8} {tasks:6} {statistics.median(ratios):8.3f} {min(ratios):7.3f} "
                      f"{max(ratios):7.3f} {best:7.3f}", flush=True)


if __name__ == "__main__":
    main()
