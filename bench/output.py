#!/usr/bin/env python3
"""Measures what it costs a task to write 65,536 bytes, in writes of 1, 64 and 65,536 bytes.

    bench/output.py [PROGRAM] [--rounds N]

A module, assembled by `wat2wasm` (Debian's wabt), calls fd_write in a loop until it has written 65,536 bytes. `serve`
runs it as 32 tasks, whose time is that of the process less that of one which creates the same tasks and starts none;
each output is then read back once and compared. Beside it `wasm-interp` (wabt) runs the module 32 times with its
imports left open, so that it writes nothing and prints a line for each call, less the time of as many runs of a module
that calls nothing. All are processor times; the two take turns, N rounds (5), and the least time of each counts.
"""
import hashlib
import json
import os
import resource
import subprocess
import tempfile

from shared import arguments

TASKS = 32
TEXT = """(module
  (import "wasi_snapshot_preview1" "fd_write" (func $write (param i32 i32 i32 i32) (result i32)))
  (memory (export "memory") 2)
  (data (i32.const 0) "\\10\\00\\00\\00%s")
  (func (export "_start") (local $left i32)
    i32.const %d
    local.set $left
    block
      loop
        local.get $left
        i32.eqz
        br_if 1
        i32.const 1
        i32.const 0
        i32.const 1
        i32.const 8
        call $write
        drop
        local.get $left
        i32.const 1
        i32.sub
        local.set $left
        br 0
      end
    end))"""


def assembled(folder, size, count):
    length = "".join("\\%02x" % byte for byte in size.to_bytes(4, "little"))
    source, module = os.path.join(folder, "m.wat"), os.path.join(folder, "m%d_%d.wasm" % (size, count))
    with open(source, "w") as file:
        file.write(TEXT % (length, count))
    subprocess.run(["wat2wasm", source, "-o", module], check=True)
    return module


def timed(commands, given=b""):
    before = resource.getrusage(resource.RUSAGE_CHILDREN)
    outs = [subprocess.run(command, input=given, capture_output=True).stdout for command in commands]
    after = resource.getrusage(resource.RUSAGE_CHILDREN)
    return after.ru_utime + after.ru_stime - before.ru_utime - before.ru_stime, outs[-1]


def script(module, ops):
    data = open(module, "rb").read()
    config = {"ociVersion": "1.0.2", "process": {"args": ["bench"], "cwd": "/"},
              "annotations": {"dev.shim.module": "sha256:" + hashlib.sha256(data).hexdigest()}}
    lines = [{"op": "put", "hex": data.hex()}]
    for i in range(TASKS):
        lines.append({"op": "create", "id": "t%d" % i, "config": json.dumps(config)})
        lines += [dict(op, id="t%d" % i) for op in ops]
    return "".join(json.dumps(line) + "\n" for line in lines).encode()


def by_shim(program, module):
    idle, _ = timed([[program, "serve"]], script(module, []))
    busy, _ = timed([[program, "serve"]], script(module, [{"op": "start"}, {"op": "wait"}]))
    return busy - idle


def check(program, module, size):
    """Reads each task's output once: 65,536 bytes, which are all 0."""
    asked = [{"op": "start"}, {"op": "wait"}, {"op": "output", "stream": 1}]
    _, out = timed([[program, "serve"]], script(module, asked))
    found = [json.loads(line) for line in out.splitlines() if b'"hex"' in line]
    assert len(found) == TASKS and all(reply["size"] == 65536 and set(reply["hex"]) == {"0"} for reply in found)


def main():
    program, rounds = arguments(5)
    with tempfile.TemporaryDirectory() as folder:
        for size in (1, 64, 65536):
            module, still = assembled(folder, size, 65536 // size), assembled(folder, size, 0)
            check(program, module, size)
            interp = ["wasm-interp", "--dummy-import-func", "--run-all-exports"]
            shim, wabt = [], []
            for _ in range(rounds):
                shim.append(by_shim(program, module))
                wabt.append(timed([interp + [module]] * TASKS)[0] - timed([interp + [still]] * TASKS)[0])
            print("writes of %5d bytes: serve %8.3f ms a task   wasm-interp, which writes nothing, %8.3f ms" % (
                size, min(shim) * 1e3 / TASKS, max(0, min(wabt)) * 1e3 / TASKS))


main()
