#!/usr/bin/env python3
"""Measures what a turn costs by the length of slices and by the number of a module's functions.

    bench/slices.py [PROGRAM] [--rounds N]

Each program of bench/programs runs by `serve`, whose wait makes slices of 10,000 turns, and by `run`, which makes slices
of 1,000,000; from both the time in which `serve` creates the same task is taken away. Three more programs are modules
of many functions: of 4 and of 4,095 functions the first 4 are called in turn, and of 4,095 all are; a call makes a loop
of 600 turns. All are processor times; the two take turns, N rounds (5), and the least time of each counts.
"""
import os
import tempfile

from contents import HEADER, TYPES
from programs import SOURCES, compiled, script, timed
from shared import arguments, leb, sized

# 100 rounds of: local.get 0, i32.const -1, i32.add, local.tee 0, br_if 0
CALLED = b"\x01\x01\x7f\x41\xe4\0\x21\0\x03\x40\x20\0\x41\x7f\x6a\x22\0\x0d\0\x0b\x0b"
ENOUGH = 200_000  # calls
FORMS = ((4, 4), (4, 4095), (4095, 4095))  # functions that are called, of how many


def calling(called, functions):
    """A module whose entry calls the first functions in turn, 200,000 times in all, and has as many as are asked for."""
    rounds = ENOUGH // called
    calls = b"".join(b"\x10" + leb(1 + at) for at in range(called))
    entry = b"\x01\x01\x7f\x41" + signed(rounds) + b"\x21\0\x03\x40" + calls + b"\x20\0\x41\x7f\x6a\x22\0\x0d\0\x0b\x0b"
    numbers = leb(functions + 1) + b"\0" * (functions + 1)
    bodies = leb(functions + 1) + sized(entry) + sized(CALLED) * functions
    exports = b"\x01\x06_start\0\0"
    return HEADER + TYPES + b"\x03" + sized(numbers) + b"\x07" + sized(exports) + b"\x0a" + sized(bodies)


def signed(number):
    groups = [number >> shift & 0x7F for shift in range(0, number.bit_length() // 7 * 7 + 1, 7)]
    return bytes(group | 0x80 for group in groups[:-1]) + bytes(groups[-1:])


def written(folder, name, data):
    path = os.path.join(folder, name + ".wasm")
    with open(path, "wb") as file:
        file.write(data)
    return path


def measured(program, module, rounds):
    """The least nanoseconds of a turn in slices of 10,000 and of 1,000,000, and the turns."""
    short, long = [], []
    for _ in range(rounds):
        idle, _ = timed([program, "serve"], script(module, []))
        busy, out = timed([program, "serve"], script(module, ["start", "wait"]))
        turns = int(out.rpartition(b'"n":')[2].partition(b",")[0])
        short.append((busy - idle) / turns * 1e9)
        long.append((timed([program, "run", module])[0] - idle) / turns * 1e9)
    return min(short), min(long), turns


def main():
    program, rounds = arguments(5)
    print("%-16s %12s %16s %16s %8s" % ("program", "turns", "serve (10,000)", "run (1,000,000)", "ratio"))
    with tempfile.TemporaryDirectory() as folder:
        names = sorted(name[:-2] for name in os.listdir(SOURCES) if name.endswith(".c"))
        modules = [(name, compiled(folder, name)[0]) for name in names]
        for form in FORMS:
            name = "%d of %d called" % form
            modules.append((name, written(folder, name, calling(*form))))
        for name, module in modules:
            short, long, turns = measured(program, module, rounds)
            print("%-16s %12d %13.3f ns %13.3f ns %8.3f" % (name, turns, short, long, short / long), flush=True)


if __name__ == "__main__":
    main()
