"""Refuses each allocation of the program `test_allocations` in turn, and compares what it prints.

    tests/run refuse-allocations [COUNT]

The program makes a script of requests, each of them again where it is refused for memory, and so prints
the same whatever is refused. It is run with its first allocation refused,
with its second, and so on until none is left to refuse. Its standard output and its status are compared
with those stored for the gate, and the first difference ends the run with status 1. With a COUNT above 1
that many allocations in a row are refused each time.

Allocations are those that the program asks of the C library (malloc, calloc and realloc) after it is
loaded: the loader's own come before them and are not refused. Build the program first (rt run </dev/null in
crates/test_allocations); TEST_ALLOCATIONS in the environment names another one. Needs a C compiler, as `cc`.
"""
from __future__ import annotations

import argparse
import itertools
import os
import subprocess
import sys
import tempfile
from pathlib import Path

from suite.places import TOP, built, need
from suite.summary import Summary

WANTED = TOP / "crates/test_allocations/stdout"
SOURCE = Path(__file__).with_suffix(".c")
TOLD = b"refused for memory: "


def compiled(folder: Path) -> Path:
    """The library that is preloaded."""
    library = folder / "refuse.so"
    subprocess.run(["cc", "-O1", "-Wall", "-fno-builtin", "-shared", "-fPIC", "-o", library, SOURCE], check=True)
    return library


def run(program: Path, library: Path, first: int, count: int) -> subprocess.CompletedProcess[bytes]:
    """What the program does with these allocations refused."""
    words = {**os.environ, "LD_PRELOAD": str(library), "REFUSE_FIRST": str(first), "REFUSE_COUNT": str(count)}
    return subprocess.run([program], stdin=subprocess.DEVNULL, capture_output=True, env=words, timeout=60, check=False)


def refuse_each(program: Path, library: Path, count: int) -> tuple[int, int, bool]:
    """How many allocations were refused, how often the program was told of it, and whether all went well."""
    wanted, met = WANTED.read_bytes(), 0
    for first in itertools.count(1):
        done = run(program, library, first, count)
        if done.stdout != wanted or done.returncode != 0:
            print(f"allocation {first}: status {done.returncode}", flush=True)
            sys.stdout.buffer.write(done.stdout + done.stderr)
            return first - 1, met, False
        lines = done.stderr.splitlines()
        if b"refused" not in lines:
            return first - 1, met, first > 1
        met += TOLD + b"0" not in lines
    raise AssertionError("allocations have no end")


def main(words: list[str]) -> int:
    parser = argparse.ArgumentParser(prog="tests/run refuse-allocations", description=__doc__,
                                     formatter_class=argparse.RawDescriptionHelpFormatter)
    parser.add_argument("count", nargs="?", type=int, default=1, metavar="COUNT")
    given = parser.parse_args(words)
    need({"cc": "gcc"})
    program = built("test_allocations")
    with tempfile.TemporaryDirectory(prefix="refuse-") as folder:
        refused, met, is_right = refuse_each(program, compiled(Path(folder)), given.count)
    print(f"{refused} allocations refused, {given.count} in a row: the output was the same each time, and the program was "
          f"told of it {met} times")
    return Summary("refuse-allocations", refused, int(not is_right)).end()
