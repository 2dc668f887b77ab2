#!/usr/bin/env python3
"""Measures how fast `serve` answers, beside the time in which Python's json module reads the same lines.

    bench/serve.py [PROGRAM]

Scripts: 64 tasks, each created, started, waited for and asked for its state, over one content; 4,000 tasks one after
another, each created, started, waited for and deleted; 64 creates over one content of 82 bytes and over one of 196 KB;
200 puts of 262,144 bytes; and 5,000 times a put and its removal, with no other content and with 255 others. Each runs
seven times in turn with its comparison; the best time counts. For the tasks one after another there is also what it costs to
start `wasm-interp` (Debian's wabt) on the same module, once for each of 200.
"""
import hashlib
import json
import os
import subprocess
import sys
import tempfile
import time

from shared import TOP, arguments, sized

PROGRAM, _ = arguments(7)
# Four requests for each task, and a board answers 16,384.
CYCLES = 4000
FIRST = [json.loads(line) for line in open(os.path.join(TOP, "examples/first_run.jsonl"))]
READ = "import json,sys\nfor line in sys.stdin.buffer: json.loads(line)"


def tasks():
    lines = [FIRST[0]]
    for i in range(64):
        name = "t%d" % i
        lines.append(dict(FIRST[1], id=name))
        lines += [{"op": op, "id": name} for op in ("start", "wait", "state")]
    return lines


def padded(data, pairs):
    """The first module with that number of constants dropped before its call."""
    head, code = data.split(b"\x0a\x08\x01\x06", 1)
    body = code[:1] + b"\x41\x00\x1a" * pairs + code[1:]
    return head + b"\x0a" + sized(b"\x01" + sized(body))


def with_config(data):
    digest = "sha256:" + hashlib.sha256(data).hexdigest()
    config = json.loads(FIRST[1]["config"])
    config["annotations"]["dev.shim.module"] = digest
    return {"op": "put", "hex": data.hex()}, dict(FIRST[1], config=json.dumps(config))


def cycles():
    lines = [FIRST[0]]
    for _ in range(CYCLES):
        lines.append(FIRST[1])
        lines += [{"op": op, "id": FIRST[1]["id"]} for op in ("start", "wait", "delete")]
    return lines


def removals(others):
    lines = [with_config(padded(bytes.fromhex(FIRST[0]["hex"]), i + 1))[0] for i in range(others)]
    digest = "sha256:" + hashlib.sha256(b"abc").hexdigest()
    return lines + [{"op": "put", "hex": "616263"}, {"op": "remove", "digest": digest}] * 5000


def creates(pairs):
    put, create = with_config(padded(bytes.fromhex(FIRST[0]["hex"]), pairs))
    return [put, *(dict(create, id="t%d" % i) for i in range(64))]


def puts():
    return [{"op": "put", "hex": (b"%06d" % i).hex() + "ab" * (262144 - 6)} for i in range(200)]


def best(command, data):
    times = []
    for _ in range(7):
        start = time.perf_counter()
        subprocess.run(command, input=data, stdout=subprocess.PIPE, check=True)
        times.append(time.perf_counter() - start)
    return min(times)


SCRIPTS = (
    ("64 tasks, 257 lines", tasks()),
    ("4,000 tasks, 16,001 lines", cycles()),
    ("64 creates over 82 bytes", creates(0)),
    ("64 creates over 196 KB", creates(65533)),
    ("200 puts of 262,144 bytes", puts()),
    ("5,000 puts and removals", removals(0)),
    ("the same with 255 contents", removals(255)),
)
for title, lines in SCRIPTS:
    data = "".join(json.dumps(line) + "\n" for line in lines).encode()
    replies = subprocess.run([PROGRAM, "serve"], input=data, stdout=subprocess.PIPE, check=True).stdout
    assert replies.count(b"\n") == len(lines) and b"false" not in replies, "a line was refused"
    shim = best([PROGRAM, "serve"], data)
    reader = best([sys.executable, "-c", READ], data)
    print("%-28s serve %8.1f ms  %9.0f lines/s  %7.1f MB/s   json module %8.1f ms" % (
        title, shim * 1e3, len(lines) / shim, len(data) / shim / 1e6, reader * 1e3))

with tempfile.NamedTemporaryFile(suffix=".wasm") as file:
    file.write(bytes.fromhex(FIRST[0]["hex"]))
    file.flush()
    start = time.perf_counter()
    for _ in range(200):
        subprocess.run(["wasm-interp", "--dummy-import-func", "--run-all-exports", file.name], stdout=subprocess.PIPE)
    print("wasm-interp started %8.3f ms a time" % ((time.perf_counter() - start) * 1e3 / 200))
