#!/usr/bin/env python3
"""Measures how fast a module is decoded and validated, beside `wasm-validate` (Debian's wabt) in the same run.

    bench/modules.py [PROGRAM] [--rounds N]

The module has 250 KB of straight-line numeric code in one function. `check` reads it 20 times, each in a process of its
own, and so does `wasm-validate`; from both the time of as many runs over a module with an empty entry is taken away. All
are processor times; the two take turns, N rounds (5), and the least time of each counts. Decoding and validation are one
number here, since neither program does one without the other.
"""
import os
import resource
import subprocess
import tempfile

from contents import numeric
from shared import arguments

RUNS = 20


def timed(command):
    before = resource.getrusage(resource.RUSAGE_CHILDREN)
    for _ in range(RUNS):
        subprocess.run(command, stdout=subprocess.DEVNULL, check=True)
    after = resource.getrusage(resource.RUSAGE_CHILDREN)
    return after.ru_utime + after.ru_stime - before.ru_utime - before.ru_stime


def main():
    program, rounds = arguments(5)
    with tempfile.TemporaryDirectory() as folder:
        full, empty = os.path.join(folder, "full.wasm"), os.path.join(folder, "empty.wasm")
        with open(full, "wb") as file:
            size = file.write(numeric(250_000))
        with open(empty, "wb") as file:
            file.write(numeric(0))
        shim, wabt = [], []
        for _ in range(rounds):
            shim.append(timed([program, "check", full]) - timed([program, "check", empty]))
            wabt.append(timed(["wasm-validate", full]) - timed(["wasm-validate", empty]))
    for name, times in (("check", shim), ("wasm-validate", wabt)):
        spent = min(times) / RUNS
        print("%-14s %7.2f ms for %d bytes   %7.1f MB/s" % (name, spent * 1e3, size, size / spent / 1e6))


if __name__ == "__main__":
    main()
