#!/usr/bin/env python3
"""Measures how fast tasks run, beside `wasm-interp` (Debian's wabt) and, where it is installed, `jsc`, in the same run.

    bench/programs.py [PROGRAM] [--rounds N]

Each C source in bench/programs is compiled by clang and wasm-ld (version 14) to a module and by the same clang to a
native program, whose checksum all engines have to give. A task is put, created, started and waited for by `serve`;
its processor time is that of the process less that of one which creates the same task and does not start it.
`wasm-interp` runs the module with its import left open, so that it prints the checksum and traps. `jsc` (Debian's
libjavascriptcoregtk-4.0-bin) is JavaScriptCore with its compilers switched off, so that modules are interpreted; what
it takes for an empty entry is taken away. They take turns, N rounds (3); the least time of each counts. Prints
seconds, how many times as fast `serve` is as each of the others, and turns a second.
"""
import hashlib
import json
import math
import os
import re
import resource
import shutil
import subprocess
import tempfile
from collections.abc import Iterable

from contents import dropping
from shared import TOP, arguments

SOURCES = os.path.join(TOP, "bench/programs")
WASM = ["clang-14", "--target=wasm32", "-mcpu=mvp", "-O2", "-nostdlib", "-ffreestanding", "-Wl,--no-entry",
        "-Wl,-z,stack-size=16384", "-Wl,--strip-all"]
JSC = ["jsc", "--useBBQJIT=false", "--useOMGJIT=false", "--useConcurrentGC=false", os.path.join(SOURCES, "run.js"), "--"]


def compiled(folder: str, name: str) -> tuple[str, int]:
    source = os.path.join(SOURCES, name + ".c")
    module, native = os.path.join(folder, name + ".wasm"), os.path.join(folder, name)
    subprocess.run(WASM + ["-o", module, source], check=True)
    subprocess.run(["clang-14", "-O2", "-w", "-o", native, source], check=True)
    return module, int(subprocess.check_output([native]))


def timed(command: list[str], given: bytes = b"") -> tuple[float, bytes]:
    before = resource.getrusage(resource.RUSAGE_CHILDREN)
    done = subprocess.run(command, input=given, capture_output=True)
    after = resource.getrusage(resource.RUSAGE_CHILDREN)
    return after.ru_utime + after.ru_stime - before.ru_utime - before.ru_stime, done.stdout


def script(module: str, ops: list[str]) -> bytes:
    data = open(module, "rb").read()
    config = {"ociVersion": "1.0.2", "process": {"args": ["bench"], "cwd": "/"},
              "annotations": {"dev.shim.module": "sha256:" + hashlib.sha256(data).hexdigest()}}
    lines: list[dict[str, str]] = [{"op": "put", "hex": data.hex()}, {"op": "create", "id": "t", "config": json.dumps(config)}]
    lines += [{"op": op, "id": "t"} for op in ops]
    return "".join(json.dumps(line) + "\n" for line in lines).encode()


def by_shim(program: str, module: str, checksum: int) -> tuple[float, int]:
    idle, _ = timed([program, "serve"], script(module, []))
    busy, out = timed([program, "serve"], script(module, ["start", "wait", "state"]))
    state = json.loads(out.splitlines()[-1])
    assert state.get("exit") == checksum, state
    return busy - idle, state["n"]


def by_wabt(module: str, checksum: int) -> float:
    seconds, out = timed(["wasm-interp", "--dummy-import-func", "--run-all-exports", module])
    given = re.search(rb"proc_exit\(i32:(\d+)\)", out)
    assert given and int(given.group(1)) == checksum, out
    return seconds


def by_jsc(module: str, checksum: int, idle: float) -> float:
    seconds, out = timed(JSC + [module])
    assert int(out) == checksum, out
    return seconds - idle


def measured(program: str, module: str, checksum: int, empty: str, rounds: int) -> tuple[list[float], int]:
    """The least times of the engines, the product's first, and the turns."""
    times = []
    for _ in range(rounds):
        seconds, turns = by_shim(program, module, checksum)
        times.append([seconds, by_wabt(module, checksum)])
        if shutil.which("jsc"):
            idle, _ = timed(JSC + [empty])
            times[-1].append(by_jsc(module, checksum, idle))
    return [min(column) for column in zip(*times)], turns


def race(program: str, entries: Iterable[tuple[str, str, int]], rounds: int) -> None:
    """Prints a line for each program, whose name, module and checksum are given, and then the ratios of all."""
    ratios = []
    print("%-14s %12s %8s %14s   %s" % ("program", "turns", "shim", "turns a second",
                                        "wasm-interp and jsc, each with its ratio"))
    with tempfile.TemporaryDirectory() as folder:
        empty = os.path.join(folder, "empty.wasm")
        with open(empty, "wb") as file:
            file.write(dropping(0, b""))
        for name, module, checksum in entries:
            (shim, *others), turns = measured(program, module, checksum, empty, rounds)
            ratios.append([other / shim for other in others])
            said = "   ".join("%7.3fs %5.2f" % (other, other / shim) for other in others)
            print("%-14s %12d %7.3fs %12.0f M   %s" % (name, turns, shim, turns / shim / 1e6, said), flush=True)
    for column in zip(*ratios):
        print("geometric mean %.2f, worst %.2f" % (math.exp(sum(map(math.log, column)) / len(column)), min(column)))


def main() -> None:
    program, rounds = arguments(3)
    names = sorted(name[:-2] for name in os.listdir(SOURCES) if name.endswith(".c"))
    with tempfile.TemporaryDirectory() as folder:
        race(program, ((name, *compiled(folder, name)) for name in names), rounds)


if __name__ == "__main__":
    main()
