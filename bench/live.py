#!/usr/bin/env python3
"""Measures what live callers are told, and when.

    bench/live.py [PROGRAM] [--rounds N]

1. From an end to its reply: 64 tasks that end by themselves, each with a caller that waits. The time of day in the line that
   logs the end, and that at which the host has read the reply, for N ends (1,000).
2. A `kill` of a task while 64 callers wait, and a `state` with no other caller, in the same run: the time until the reply.
3. 10,000 lives of tasks (create, start, wait, delete) over as many shims as that takes, with no question for a state.
"""
import json
import os
import select
import statistics
import sys
import tempfile
import time
from datetime import datetime
from pathlib import Path

from shared import TOP, arguments

sys.path.insert(0, os.path.join(TOP, "tests"))
WAITERS, LIVES, OF_ONE_SHIM = 64, 10_000, 3_000
# A task of some 100,000 turns, and one that does not end.
LONG = ('(module (type $e (func)) (func $s (type $e) (local $i i32) loop $l local.get $i i32.const 1 i32.add local.tee $i '
        'i32.const 20000 i32.lt_u br_if $l end) (export "_start" (func $s)))')


def quantiles(name: str, seconds: list[float]) -> None:
    micros = sorted(1e6 * each for each in seconds)
    print(f"{name}: median {statistics.median(micros):.0f} µs, 99 of 100 within {micros[len(micros) * 99 // 100]:.0f}, "
          f"worst {micros[-1]:.0f} ({len(micros)} times)", flush=True)


def from_end_to_reply(folder: Path, count: int) -> None:
    """The seconds from each end in the log to its reply at the host."""
    from suite.live import Live, config
    ids = [f"t{number}" for number in range(WAITERS)]
    found: list[float] = []
    while len(found) < count:
        with Live(1 + WAITERS, "pipes", folder, "--workers", "2", "--log", "--log-format", "json") as live:
            digest = live.owner.ask("put_text", text=LONG)["digest"]
            log = b""
            for _ in range(8):
                for id in ids:
                    assert live.owner.ask("create", id=id, config=config(digest))["ok"]
                for id in ids:
                    assert live.owner.ask("start", id=id)["ok"]
                for id, caller in zip(ids, live.others):
                    caller.send("wait", id=id)
                waiting = {caller.replies: (id, caller) for id, caller in zip(ids, live.others)}
                read: dict[str, float] = {}
                while waiting:
                    for fd in select.select(list(waiting), [], [], 60)[0]:
                        id, caller = waiting.pop(fd)
                        reply = caller.read()
                        read[id] = time.time()
                        assert reply is not None and reply["cause"] == "return"
                log += live.told()
                ended = {}
                for line in map(json.loads, log.splitlines()):
                    if line["event"] == "ended":
                        ended[line["id"]] = datetime.fromisoformat(line["time"].replace("Z", "+00:00")).timestamp()
                found += [read[id] - ended[id] for id in ids]
                for id in ids:
                    assert live.owner.ask("delete", id=id)["ok"]
            live.end()
    quantiles("from an end in the log to its reply", found[:count])


def took(ask) -> float:
    start = time.perf_counter()
    assert ask()["ok"]
    return time.perf_counter() - start


def kills_beside_states(folder: Path, count: int) -> None:
    from suite.live import Live
    ids = [f"t{number}" for number in range(WAITERS)]
    kills: list[float] = []
    while len(kills) < count:
        with Live(1 + WAITERS, "pipes", folder, "--workers", "2") as live:
            live.endless(ids)
            for id, caller in zip(ids, live.others):
                caller.send("wait", id=id)
            time.sleep(0.2)
            kills += [took(lambda: live.owner.ask("kill", id=id, signal=9)) for id in ids]
            live.end()
    with Live(1, "pipes", folder, "--workers", "2") as live:
        live.endless(["a"])
        states = [took(lambda: live.owner.ask("state", id="a")) for _ in range(count)]
        live.end()
    quantiles(f"a kill while {WAITERS} wait", kills[:count])
    quantiles("a state with no other caller", states)
    print(f"the one over the other, by medians: {statistics.median(kills) / statistics.median(states):.2f}")


def lives(folder: Path) -> None:
    from suite.live import SHORT, Live, config
    made, start = 0, time.perf_counter()
    while made < LIVES:
        with Live(2, "pipes", folder, "--workers", "1") as live:
            digest = live.owner.ask("put_text", text=SHORT)["digest"]
            for _ in range(min(OF_ONE_SHIM, LIVES - made)):
                assert live.owner.ask("create", id="a", config=config(digest))["ok"]
                assert live.owner.ask("start", id="a")["ok"]
                live.others[0].send("wait", id="a")
                reply = live.others[0].read()
                assert reply is not None and reply["cause"] == "return"
                assert live.owner.ask("delete", id="a")["ok"]
                made += 1
            assert live.end() == (0, b"")
    print(f"{made} lives of tasks in {time.perf_counter() - start:.1f} s, without a question for a state")


def main() -> None:
    program, count = arguments(1_000)
    os.environ["PROGRAM"] = program
    with tempfile.TemporaryDirectory() as name:
        folder = Path(name)
        from_end_to_reply(folder, count)
        kills_beside_states(folder, count)
        lives(folder)


if __name__ == "__main__":
    main()
