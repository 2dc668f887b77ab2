#!/usr/bin/env python3
"""Measures whether a `state` costs more while other callers sleep in a `wait`.

    bench/sleepers.py [PROGRAM] [--rounds N]

A caller asks 4,000 times for the state of a task that is not started, while a worker runs another task, which does not end,
and 0 or 64 other callers wait for that. The two take turns, N rounds (15). Prints the median over the rounds of the time with
64 callers by the time with none, and the least and the most.
"""
import hashlib
import json
import os
import statistics
import subprocess
import tempfile
import threading
import time
from pathlib import Path

from contents import EXPORTS, FUNCS, HEADER, TYPES
from shared import arguments, sized

ENDLESS = HEADER + TYPES + FUNCS + EXPORTS + b"\x0a" + sized(b"\x01" + sized(b"\0\x03\x40\x0c\0\x0b\x0b"))
STATES, SETTLED = 4_000, 0.5


def requests(ops: list[tuple[str, str]]) -> bytes:
    """The lines of requests to tasks."""
    return b"".join(json.dumps({"op": op, "id": name}).encode() + b"\n" for op, name in ops)


def beginning() -> bytes:
    """The lines that make both tasks, and start one."""
    digest = "sha256:" + hashlib.sha256(ENDLESS).hexdigest()
    config = json.dumps({"ociVersion": "1.0.2", "process": {"args": ["a"], "cwd": "/"},
                         "annotations": {"dev.shim.module": digest}})
    made = [{"op": "put", "hex": ENDLESS.hex()}, *({"op": "create", "id": name, "config": config} for name in ("run", "idle"))]
    return b"".join(json.dumps(line).encode() + b"\n" for line in made) + requests([("start", "run")])


def fed(path: Path, parts: list[tuple[float, bytes]]) -> threading.Thread:
    """Writes parts into a FIFO, each after so many seconds."""
    def feed() -> None:
        with open(path, "wb", buffering=0) as file:
            for pause, part in parts:
                time.sleep(pause)
                file.write(part)
    thread = threading.Thread(target=feed)
    thread.start()
    return thread


def took(program: str, folder: Path, sleeping: int, states: int) -> float:
    """The seconds that a shim runs, with so many callers that sleep and so many questions."""
    names = [str(folder / f"caller{number}") for number in range(sleeping + 1)]
    for name in names:
        os.mkfifo(name)
    questions = requests([("state", "idle")] * states + [("kill", "run")]).replace(b'"kill"', b'"kill", "signal": 9')
    first = fed(Path(names[0]), [(0.0, beginning()), (2 * SETTLED, questions)])
    others = [fed(Path(name), [(SETTLED, requests([("wait", "run")]))]) for name in names[1:]]
    start = time.perf_counter()
    done = subprocess.run([program, "serve", "--workers", "1", *names], stdout=subprocess.PIPE, check=True)
    seconds = time.perf_counter() - start
    for thread in (first, *others):
        thread.join()
    for name in names:
        os.unlink(name)
    assert done.stdout.count(b'"ok":true') == 5 + states + sleeping, "a request was refused"
    return seconds


def cost(program: str, folder: Path, sleeping: int) -> float:
    """The seconds that the questions take."""
    return took(program, folder, sleeping, STATES) - took(program, folder, sleeping, 1)


def main() -> None:
    program, rounds = arguments(15)
    with tempfile.TemporaryDirectory() as name:
        folder = Path(name)
        ratios = []
        for _ in range(rounds):
            beside = cost(program, folder, 0)
            ratios.append(cost(program, folder, 64) / beside)
    print(f"a state with 64 sleeping callers over one with none: median {statistics.median(ratios):.3f}, "
          f"least {min(ratios):.3f}, most {max(ratios):.3f}")


if __name__ == "__main__":
    main()
