#!/usr/bin/env python3
"""Measures what it costs to create 64 tasks over one content, and to put contents, in time and in memory.

    bench/creates.py [PROGRAM]

Three contents: 196 KB of the densest code, which is 131,066 instructions, 196 KB of numeric code, which is 79,000,
and a small module whose memory has one page at first and a cap of 16 MiB. `serve` is asked through a pipe: the put,
the first create, which decodes, validates and flattens the content, and the 63 other creates, sent at once; then the
states of these 63 tasks, sent at once. Printed are the times of the best of nine rounds, the median over the rounds of
the time of 63 creates by that of 63 states, and the resident memory of the whole process after all creates, with no
task started (VmRSS of Linux).

At the end 256 contents of 262,144 bytes are put, each another one, and the growth of the resident memory over the bytes
that are stored is printed.
"""
import hashlib
import json
import statistics
import subprocess
import time

from contents import MEMORY, dropping, numeric
from shared import arguments, leb

PROGRAM, _ = arguments(9)


def lines(data, limit):
    config = {"ociVersion": "1.0.2", "process": {"args": ["a"], "cwd": "/"},
              "annotations": {"dev.shim.module": "sha256:" + hashlib.sha256(data).hexdigest()}}
    if limit:
        config["linux"] = {"resources": {"memory": {"limit": limit}}}
    create = [{"op": "create", "config": json.dumps(config), "id": "t%d" % i} for i in range(64)]
    state = [{"op": "state", "id": "t%d" % i} for i in range(1, 64)]
    return [written(line) for line in [{"op": "put", "hex": data.hex()}, *create, *state]]


def written(request):
    return (json.dumps(request) + "\n").encode()


def asked(process, requests):
    start = time.perf_counter()
    process.stdin.write(b"".join(requests))
    process.stdin.flush()
    for _ in requests:
        assert b'"ok":true' in process.stdout.readline(), "a line was refused"
    return (time.perf_counter() - start) * 1e3


def resident(process):
    with open("/proc/%d/status" % process.pid) as file:
        return next(int(line.split()[1]) for line in file if line.startswith("VmRSS")) / 1024


def measured(data, limit):
    requests = lines(data, limit)
    with subprocess.Popen([PROGRAM, "serve"], stdin=subprocess.PIPE, stdout=subprocess.PIPE) as process:
        put, first, others = (asked(process, part) for part in (requests[:1], requests[1:2], requests[2:65]))
        return put, first, others, asked(process, requests[65:]), resident(process)


def custom(number, size):
    """A content of that many bytes: a preamble and a custom section, whose last bytes are the number."""
    rest = size - 8
    front = b"\0" + leb(rest - 4) + b"\1x"
    return b"\0asm\1\0\0\0" + front + number.to_bytes(rest - len(front), "big")


def stored(count, size):
    """The growth of the resident memory of a shim over the bytes that it stores."""
    with subprocess.Popen([PROGRAM, "serve"], stdin=subprocess.PIPE, stdout=subprocess.PIPE) as process:
        asked(process, [written({"op": "put", "hex": custom(0, size).hex()})])
        before = resident(process)
        for number in range(1, count):
            asked(process, [written({"op": "put", "hex": custom(number, size).hex()})])
        return (resident(process) - before) * 1024 * 1024 / ((count - 1) * size)


def main():
    contents = (
        ("densest code", dropping(65533, b""), None),
        ("numeric code", numeric(196_500), None),
        ("a cap of 16 MiB", dropping(1, MEMORY), 1 << 24),
    )
    for title, data, limit in contents:
        rounds = [measured(data, limit) for _ in range(9)]
        ratio = statistics.median(creates / states for _, _, creates, states, _ in rounds)
        put, first, others, states, memory = (min(column) for column in zip(*rounds))
        print("%-16s put %6.2f ms   first create %6.2f ms   63 creates %6.2f ms   63 states %6.2f ms   "
              "creates over states %5.2f   resident %5.1f MiB" % (title, put, first, others, states, ratio, memory))
    print("resident memory of 256 puts of 262,144 bytes over the bytes that are stored: %.3f" % stored(256, 262_144))


if __name__ == "__main__":
    main()
