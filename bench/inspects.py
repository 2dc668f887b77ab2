#!/usr/bin/env python3
"""Measures what an `inspect` costs, by a task's frames and its values, beside Python's json module on the same reply.

    bench/inspects.py [PROGRAM] [--rounds N]

A function calls itself until as many frames are there as are asked for, and pauses there at a breakpoint: 1 frame, 1,024
frames of one value, 1,024 frames of 64 values, 2 frames with 65,000 operands of 20 digits, and 1,024 frames of a function of
190 KB, which jumps over most of it, without blocks round it and inside 250 of them: a body is walked twice for all frames of
its function. `serve` is sent a row of inspects at once, through a pipe, and each reply is read; beside them a row of `state`,
which is what any line costs. All are wall times of one request; N rounds (9), of the last two forms one, and the least time
of each counts. The last line is what one more frame and one more value cost, by the second form against the first and the
third against the second.
"""
import hashlib
import json
import subprocess
import time

from contents import HEADER
from shared import arguments, leb, sized
from slices import signed

LEAST = b"\x80" * 9 + b"\x7f"  # -2^63
# What is measured: frames, locals of each, operands of the innermost, open blocks round all of the function,
# instructions that are jumped over, and how many inspects are sent at once.
FORMS = (
    ("1 frame", 1, 1, 0, 0, 0, 1000),
    ("1,024 frames", 1024, 1, 0, 0, 0, 100),
    ("1,024 frames of 64 values", 1024, 64, 0, 0, 0, 10),
    ("65,000 operands", 2, 2, 65_000, 0, 0, 10),
    ("1,024 frames of 190 KB", 1024, 1, 0, 0, 126_000, 1),
    ("the same in 250 blocks", 1024, 1, 0, 250, 126_000, 1),
)


def calling_itself(locals_, operands, blocks, skipped):
    """The body of function 1, which takes a number and calls itself with one less, and where it is when that is 0."""
    jump = [b"\x02\x40", b"\x0c\0", *[b"\x41\0", b"\x1a"] * (skipped // 2)] if skipped else []
    head = [b"\x02\x40"] * blocks + jump
    again = [b"\x20\0", b"\x41\x01", b"\x6b", b"\x10\x01"]
    last = [b"\x42" + LEAST, b"\x21\x01", *[b"\x20\x01"] * operands] if operands else []
    code = b"".join(head) + b"\x0b" * bool(skipped) + b"\x20\0\x04\x40" + b"".join(again) + b"\x05" + b"".join(last)
    own = b"\x01" + leb(locals_ - 1) + b"\x7e" if locals_ > 1 else b"\0"
    code += b"\x01" + b"\x1a" * operands + b"\x0b" * (2 + blocks)
    return own + code, len(head) + 2 + len(again) + len(last)


def module_of(frames, *form):
    """A module that comes to that many frames, and where: the function and the place."""
    body, place = calling_itself(*form)
    entry = b"\0\x41" + signed(max(0, frames - 2)) + b"\x10\x01\x0b"
    types = b"\x01\x08\x02\x60\0\0\x60\x01\x7f\0"
    parts = types + b"\x03\x03\x02\0\x01" + b"\x07\x0a\x01\x06_start\0\0"
    data = HEADER + parts + b"\x0a" + sized(b"\x02" + sized(entry) + sized(body))
    return data, (0, 0) if frames == 1 else (1, place)


def script(data, func, place):
    """Lines that bring a task to a place."""
    config = {"ociVersion": "1.0.2", "process": {"args": ["a"], "cwd": "/"},
              "annotations": {"dev.shim.module": "sha256:" + hashlib.sha256(data).hexdigest()}}
    lines = [{"op": "put", "hex": data.hex()}, {"op": "create", "config": json.dumps(config)},
             {"op": "break", "func": func, "place": place}, {"op": "start"}, {"op": "wait"}]
    return [line_of(line if line["op"] == "put" else dict(line, id="a")) for line in lines]


def line_of(request):
    return (json.dumps(request) + "\n").encode()


def asked(process, lines):
    """The seconds that one of these lines takes, and the last reply."""
    start = time.perf_counter()
    process.stdin.write(b"".join(lines))
    process.stdin.flush()
    for _ in lines:
        reply = process.stdout.readline()
    return (time.perf_counter() - start) / len(lines), reply


def read(reply):
    """The seconds in which the json module reads a reply."""
    start = time.perf_counter()
    json.loads(reply)
    return time.perf_counter() - start


def measured(program, form, rounds):
    """The least seconds of an inspect, of a state and of the json module, and the reply."""
    _, *form, count = form
    data, at = module_of(*form)
    inspect, state = (line_of({"op": op, "id": "a"}) for op in ("inspect", "state"))
    with subprocess.Popen([program, "serve"], stdin=subprocess.PIPE, stdout=subprocess.PIPE) as process:
        _, reply = asked(process, script(data, *at))
        assert b'"paused"' in reply, reply
        inspects = [asked(process, [inspect] * count) for _ in range(rounds if count > 1 else 1)]
        states = [asked(process, [state] * 1000)[0] for _ in range(rounds)]
    reply = inspects[0][1]
    return min(seconds for seconds, _ in inspects), min(states), min(read(reply) for _ in range(rounds)), reply


def counted(reply):
    """The frames and the values that a reply shows."""
    frames = json.loads(reply)["frames"]
    return len(frames), sum(len(frame["locals"]) + len(frame["operands"]) for frame in frames)


def main():
    program, rounds = arguments(9)
    found = []
    for form in FORMS:
        shim, state, reader, reply = measured(program, form, rounds)
        found.append((shim, *counted(reply)))
        print("%-26s %5d frames %6d values %8d bytes   inspect %10.1f us   state %5.1f us   json module %10.1f us" % (
            form[0], *found[-1][1:], len(reply), shim * 1e6, state * 1e6, reader * 1e6), flush=True)
    (one, frames, _), (many, more_frames, values), (full, _, more_values) = found[:3]
    print("a frame %.3f us   a value %.1f ns" % (
        (many - one) / (more_frames - frames) * 1e6, (full - many) / (more_values - values) * 1e9))


if __name__ == "__main__":
    main()
