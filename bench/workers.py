#!/usr/bin/env python3
"""Measures what workers and callers of `serve` do.

    bench/workers.py [PROGRAM] [--rounds N]

16 equal tasks, from the first start to the last end, with 1, 2 and 4 workers in turn: how many times as fast more
workers are, by the best of N rounds (5 without --rounds). How long a `state` waits for its reply while 4 workers run
tasks that never end: its median, and what one of a hundred takes. What a task costs from create to delete, one after
another. How many calls 1, 2 and 4 callers make that share a board, for each of which a file of `state` requests is read.
What the journal adds to a `state` and to a `put` of 256 KB: the same lines through `serve` and through `replay`, whose board
has none.
"""
import json
import os
import subprocess
import tempfile
import time

from shared import arguments

PROGRAM, ROUNDS = arguments(5)
ENDLESS = '(module (type $e (func)) (func $s (type $e) loop $l br $l end) (export "_start" (func $s)))'
COUNT = ('(module (type $e (func)) (func $s (type $e) (local $n i32) i32.const 20000000 local.set $n loop $l local.get $n '
         'i32.const 1 i32.sub local.tee $n br_if $l end) (export "_start" (func $s)))')
NOTHING = '(module (type $e (func)) (func $s (type $e) nop) (export "_start" (func $s)))'
CALLS = 4000


def config(digest):
    return json.dumps({"ociVersion": "1.0.2", "process": {"args": ["a"], "cwd": "/"},
                       "annotations": {"dev.shim.module": digest}})


class Caller:
    def __init__(self, *words):
        self.process = subprocess.Popen([PROGRAM, "serve", *words], stdin=subprocess.PIPE, stdout=subprocess.PIPE)

    def ask(self, op, **members):
        self.process.stdin.write(json.dumps({"op": op, **members}).encode() + b"\n")
        self.process.stdin.flush()
        return json.loads(self.process.stdout.readline())

    def create(self, ids, text):
        digest = self.ask("put_text", text=text)["digest"]
        for id in ids:
            self.ask("create", id=id, config=config(digest))

    def end(self):
        self.process.kill()
        self.process.wait()


def equal_tasks(workers):
    """Seconds for 16 tasks of 80,000,002 turns each."""
    caller, ids = Caller("--workers", str(workers)), [f"t{number}" for number in range(16)]
    caller.create(ids, COUNT)
    begin = time.perf_counter()
    for id in ids:
        caller.ask("start", id=id)
    for id in ids:
        assert caller.ask("wait", id=id)["cause"] == "return"
    took = time.perf_counter() - begin
    caller.end()
    return took


def latency():
    """Median and 99th percentile, in milliseconds, of a state while 4 workers run."""
    caller, ids = Caller("--workers", "4"), [f"t{number}" for number in range(8)]
    caller.create(ids, ENDLESS)
    for id in ids:
        caller.ask("start", id=id)
    times = []
    for _ in range(5000):
        begin = time.perf_counter()
        caller.ask("state", id="t0")
        times.append(time.perf_counter() - begin)
    caller.end()
    times.sort()
    return 1e3 * times[len(times) // 2], 1e3 * times[len(times) * 99 // 100]


def timed(words, data=b""):
    begin = time.perf_counter()
    done = subprocess.run([PROGRAM, "serve", *words], input=data, stdout=subprocess.PIPE, check=True)
    return time.perf_counter() - begin, done.stdout


def whole_tasks():
    """Microseconds of a task from create to delete, of which the program's own start is not a part."""
    caller = Caller()
    digest = caller.ask("put_text", text=NOTHING)["digest"]
    caller.end()
    lines = [{"op": "put_text", "text": NOTHING}]
    for _ in range(CALLS):
        lines += [{"op": "create", "id": "a", "config": config(digest)}]
        lines += [{"op": op, "id": "a"} for op in ("start", "wait", "delete")]
    data = b"".join(json.dumps(line).encode() + b"\n" for line in lines)
    took, replies = timed([], data)
    assert b"false" not in replies
    return 1e6 * (took - timed([])[0]) / CALLS


def callers(count):
    """Calls a second of this many callers, each of which asks for the state of no task."""
    with tempfile.TemporaryDirectory() as folder:
        files = [os.path.join(folder, str(number)) for number in range(count)]
        for file in files:
            with open(file, "wb") as script:
                script.write(b'{"op":"state","id":"zz"}\n' * CALLS)
        runs = [timed(files) for _ in range(ROUNDS)]
        assert all(replies.count(b"\n") == count * CALLS for _, replies in runs)
        start = min(timed([])[0] for _ in range(ROUNDS))
        return count * CALLS / (min(took for took, _ in runs) - start)


def in_replay(file):
    begin = time.perf_counter()
    subprocess.run([PROGRAM, "replay", file], stdout=subprocess.PIPE, check=True)
    return time.perf_counter() - begin


def journal(lines):
    """Microseconds of a line through `serve` and through `replay`."""
    with tempfile.NamedTemporaryFile() as script:
        script.write(b"".join(lines))
        script.flush()
        serve = min(timed([script.name])[0] for _ in range(ROUNDS)) - min(timed([])[0] for _ in range(ROUNDS))
        replay = min(in_replay(script.name) for _ in range(ROUNDS)) - min(in_replay("/dev/null") for _ in range(ROUNDS))
    return 1e6 * serve / len(lines), 1e6 * replay / len(lines)


def puts():
    """Lines that store 200 contents of 256 KB."""
    return [json.dumps({"op": "put", "hex": (b"%06d" % number).hex() + "ab" * (262144 - 6)}).encode() + b"\n"
            for number in range(200)]


def main():
    best = {workers: [] for workers in (1, 2, 4)}
    for _ in range(ROUNDS):
        for workers, times in best.items():
            times.append(equal_tasks(workers))
    least = {workers: min(times) for workers, times in best.items()}
    for workers, took in least.items():
        print("16 equal tasks, %d workers %8.1f ms %6.2f times" % (workers, 1e3 * took, least[1] / took))
    print("a state while 4 workers run: median %.3f ms, 99th percentile %.3f ms" % latency())
    print("a task from create to delete %8.2f microseconds" % min(whole_tasks() for _ in range(ROUNDS)))
    for count in (1, 2, 4):
        print("%d callers %10.0f calls a second" % (count, callers(count)))
    states = [b'{"op":"state","id":"zz"}\n'] * 16_000
    print("a state: serve %.2f, replay %.2f microseconds" % journal(states))
    print("a put of 256 KB: serve %.1f, replay %.1f microseconds" % journal(puts()))


main()
