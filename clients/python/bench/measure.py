"""Measures the library and the debugger over the built program. In clients/python:

    /usr/bin/python3 -m bench.measure [PROGRAM]

PROGRAM is looked for as the library does, if it is not told. First the time of a request by
the library, by asyncio, and by the bare pipe (the same line written and its reply read by two system calls). Then how
long the debugger takes to move in a program that runs for ever: to a turn, back from it, to a breakpoint, and back to
one; to 20 random turns, each time from the first turn; and to stop, once it is interrupted. Last, how soon a call ends
whose shim is killed at a random moment, at most of 50 times. The time of a request is the best of five rounds; that of
the moves is of one.
"""
from __future__ import annotations

import asyncio
import os
import random
import signal
import statistics
import subprocess
import sys
import threading
import time
from collections.abc import Callable
from pathlib import Path

import feulgama
from feulgama import requests
from feulgama.debug.debugger import Debugger
from feulgama.debug.look import Place
from feulgama.model import Inspection, State
from feulgama.opening import open_debugger
from feulgama.program import assemble, program
from feulgama.requests import Request

# Each round of the loop is six turns; each 2^20 rounds it calls function 1.
FOREVER = b"""(module (type $v (func))
  (func $often (type $v) nop)
  (func $main (type $v) (local $i i32)
    loop
      local.get $i  i32.const 1  i32.add  local.tee $i
      i32.const 1048575  i32.and  i32.eqz
      if  call $often  end
      br 0
    end)
  (export "_start" (func $main)))"""
REQUESTS = 3000  # five rounds are less than a shim answers
FAR = 10**8


def best(rounds: int, act: Callable[[], object]) -> float:
    """The shortest time of some rounds, in seconds."""
    times = []
    for _ in range(rounds):
        begin = time.perf_counter()
        act()
        times.append(time.perf_counter() - begin)
    return min(times)


def by_pipe(words: list[str], line: bytes, before: list[bytes]) -> float:
    """The time of a request that is written and read by two system calls."""
    process = subprocess.Popen([*words, "serve"], stdin=subprocess.PIPE, stdout=subprocess.PIPE, bufsize=0)
    assert process.stdin is not None and process.stdout is not None
    into, out = process.stdin.fileno(), process.stdout.fileno()

    def ask(lines: list[bytes]) -> None:
        for found in lines:
            os.write(into, found)
            os.read(out, 65_536)

    ask(before)
    found = best(5, lambda: ask([line] * REQUESTS))
    process.stdin.close()
    process.wait()
    process.stdout.close()
    return found / REQUESTS


def requests_of(words: list[str], name: str, data: bytes) -> None:
    before = [requests.put(data).line, requests.create(feulgama.Config(feulgama.digest_of(data)), "a").line]
    both: list[Request[State] | Request[Inspection]] = [requests.state("a"), requests.inspect("a")]
    for asked in both:
        bare = by_pipe(words, asked.line, before)
        with feulgama.Shim(name) as shim:
            shim.create(feulgama.Config(shim.ensure(data)), "a")
            method: Callable[[str], object] = shim.state if asked.op == "state" else shim.inspect
            library = best(5, lambda: [method("a") for _ in range(REQUESTS)]) / REQUESTS
        print(f"{asked.op}: pipe {bare * 1e6:.1f} us, library {library * 1e6:.1f} us, "
              f"more {(library - bare) * 1e6:.1f} us")
    print(f"state by asyncio, 64 at once: {asyncio.run(by_asyncio(name, data)) * 1e6:.1f} us")


async def by_asyncio(name: str, data: bytes) -> float:
    async with feulgama.AsyncShim(name) as shim:
        await shim.create(feulgama.Config(await shim.ensure(data)), "a")
        begin = time.perf_counter()
        for _ in range(REQUESTS // 64):
            await asyncio.gather(*(shim.state("a") for _ in range(64)))
        return (time.perf_counter() - begin) / (REQUESTS // 64 * 64)


def moves(name: str, data: bytes) -> None:
    with feulgama.Shim(name, workers=1) as shim:
        debugger = open_debugger(shim, Path("module"), data, [], {}, None)
        timeline = debugger.timeline

        def timed(what: str, act: Callable[[], object]) -> None:
            begin, from_ = time.perf_counter(), timeline.turn
            act()
            told = time.perf_counter() - begin
            print(f"{what}: {told:.3f} s, from turn {from_:,} to {timeline.turn:,}")

        timed(f"goto {FAR:,}", lambda: timeline.seek(FAR))
        timed("reverse-step", debugger.step_back)
        for _ in range(4):
            timed("reverse-step again", debugger.step_back)
        timed("memory and frames there", lambda: (timeline.inspection(), timeline.memory_size()))
        timed("step 1000", lambda: debugger.step(1000))
        timed("goto 0", lambda: timeline.seek(0))
        timed(f"goto {FAR - 1000:,}", lambda: timeline.seek(FAR - 1000))
        with_breakpoint(debugger, timed)
        print(f"shims that were started on the way: {timeline.shims_started}")
        timeline.close()


def far_turns(name: str, data: bytes) -> None:
    """To random turns from 50 to 150 million, from the first turn each time."""
    times, late = [], 0
    for _ in range(20):
        with feulgama.Shim(name, workers=1) as shim:
            timeline = open_debugger(shim, Path("module"), data, [], {}, None).timeline
            turn = random.randrange(FAR // 2, FAR * 3 // 2)
            begin = time.perf_counter()
            timeline.seek(turn)
            times.append((time.perf_counter() - begin) / turn * FAR)
            assert timeline.turn == turn and timeline.inspection().turns == turn
            late += timeline.late
            timeline.close()
    print(f"goto of 20 random turns, seconds for each 100,000,000 of them: {min(times):.3f} to {max(times):.3f}, "
          f"median {statistics.median(times):.3f}; paused too late {late} times")


def interrupts(name: str, data: bytes) -> None:
    """A run without a goal that is interrupted."""
    slowest = 0.0
    with feulgama.Shim(name, workers=1) as shim:
        debugger = open_debugger(shim, Path("module"), data, [], {}, None)
        timeline = debugger.timeline
        for _ in range(20):
            moment: list[float] = []

            def interrupt(moment: list[float] = moment) -> None:
                moment.append(time.perf_counter())
                timeline.interrupted.set()

            timer = threading.Timer(random.uniform(0.1, 0.5), interrupt)
            timer.start()
            debugger.go_on()
            slowest = max(slowest, time.perf_counter() - moment[0])
            timeline.interrupted.clear()
        print(f"a stop after an interrupt: at most {slowest * 1000:.1f} ms, at turn {timeline.turn:,}")
        timeline.close()


def with_breakpoint(debugger: Debugger, timed: Callable[[str, Callable[[], object]], None]) -> None:
    """To a breakpoint that is met each 10 million turns, and back to it."""
    debugger.timeline.seek(0)
    debugger.add_breakpoint("often", [Place(0, 0)])
    for _ in range(3):
        timed("continue to a breakpoint", debugger.go_on)
    debugger.timeline.seek(FAR)
    for _ in range(3):
        timed("reverse-continue to a breakpoint", debugger.go_back)
    debugger.breakpoints.clear()
    debugger.add_breakpoint("loop", [Place(1, 0)])
    debugger.timeline.seek(FAR)
    timed("reverse-continue to one in the loop", debugger.go_back)
    debugger.breakpoints.clear()
    timed("continue 100,000,000", lambda: debugger.go_on(debugger.timeline.turn + FAR))


def kills(name: str, data: bytes) -> None:
    slowest = 0.0
    for _ in range(50):
        with feulgama.Shim(name) as shim:
            shim.create(feulgama.Config(shim.ensure(data)), "a")
            killed: list[float] = []

            def kill(pid: int = shim.pid, killed: list[float] = killed) -> None:
                killed.append(time.perf_counter())
                os.kill(pid, signal.SIGKILL)

            timer = threading.Timer(random.uniform(0, 0.03), kill)
            timer.start()
            try:
                while True:
                    shim.inspect("a")
            except feulgama.ShimEndedError:
                slowest = max(slowest, time.perf_counter() - killed[0])
            timer.join()
    print(f"an exception after a kill: at most {slowest * 1000:.1f} ms")


def main(words: list[str]) -> int:
    name = words[0] if words else program()[0]
    data = assemble(FOREVER, program(name))
    requests_of(program(name), name, data)
    moves(name, data)
    far_turns(name, data)
    interrupts(name, data)
    kills(name, data)
    return 0


if __name__ == "__main__":
    sys.exit(main(sys.argv[1:]))
