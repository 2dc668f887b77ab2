#!/usr/bin/env python3
"""A shim that knows one program alone, that of tests/support.py which runs for ever, and what it has at each turn. So
its tasks run at any speed that is asked for, by the clock, in slices of 10,000 turns. What is tested with it is how
a client comes to a turn while a task runs.

    simulated_shim.py serve --caller IN:OUT ..

SPEED in the environment is how many turns a task makes in a second, or two numbers: before its turn 20,000,000 and
then. LATE is how many seconds late a `pause` takes hold, as if the client had slept too long, and how many times. A
breakpoint in any function but the first is never met.
"""
import json
import os
import sys
import time
from pathlib import Path
from typing import Any

sys.path.insert(0, str(Path(__file__).resolve().parents[1]))

from tests.stub_callers import lines_of  # noqa: E402

ROUND, SLICE, JOURNAL = 6, 10_000, 16_384
CHANGE = 20_000_000
SPEEDS = [float(word) for word in os.environ.get("SPEED", "1e8").split()]
LATE, TIMES = map(float, os.environ.get("LATE", "0 0").split())
NAMES = {3: "Exists", 4: "NotFound", 11: "WrongStatus", 15: "JournalFull"}


class Refused(Exception):
    """A refusal, with its number."""


class Task:
    """A task that has made `turns` turns, or has run since a moment if it is running."""

    def __init__(self) -> None:
        self.turns, self.status, self.since, self.breaks = 0, "created", 0.0, set[int]()
        self.at = 0

    def look(self) -> None:
        """Makes the turns of the slices that have ended by now."""
        if self.status != "running":
            return
        made = int((time.monotonic() - self.since) * SPEEDS[0 if self.at < CHANGE else -1]) // SLICE * SLICE
        self.go_to(self.at + made)

    def go_to(self, turn: int) -> None:
        """Goes on to a turn, or is paused at a breakpoint before."""
        hits = [self.turns + 1 + (place - self.turns - 1) % ROUND for place in self.breaks]
        if turn > self.turns and hits and min(hits) <= turn:
            self.turns, self.status = min(hits), "paused"
        else:
            self.turns = max(turn, self.turns)


class Simulation:
    """A board of such tasks."""

    def __init__(self) -> None:
        self.tasks: dict[str, Task] = {}
        self.late = TIMES

    def answer(self, op: str, keys: dict[str, Any]) -> dict[str, Any]:
        """The reply to a request."""
        if op == "put":
            return {"digest": "sha256:" + "0" * 64, "size": 0}
        id = str(keys["id"])
        if op == "create":
            self.tasks[id] = Task()
            return {"id": id, "status": "created"}
        task = self.tasks.get(id)
        if task is None:
            raise Refused(4)
        task.look()
        return {"id": id, **getattr(self, op + "_")(task, keys)}

    @staticmethod
    def needs(task: Task, *statuses: str) -> None:
        if task.status not in statuses:
            raise Refused(11)

    def start_(self, task: Task, _keys: dict[str, Any]) -> dict[str, Any]:
        self.needs(task, "created")
        task.status = "paused" if 0 in task.breaks else "running"
        task.since, task.at = time.monotonic(), task.turns
        return {"status": task.status}

    def resume_(self, task: Task, _keys: dict[str, Any]) -> dict[str, Any]:
        self.needs(task, "paused")
        task.status, task.since, task.at = "running", time.monotonic(), task.turns
        return {"status": "running"}

    def pause_(self, task: Task, _keys: dict[str, Any]) -> dict[str, Any]:
        self.needs(task, "running")
        if self.late > 0:
            self.late -= 1
            time.sleep(LATE)
            task.look()
        task.go_to(task.turns + SLICE)
        task.status = "paused"
        return {"status": "pausing"}

    def wait_(self, task: Task, keys: dict[str, Any]) -> dict[str, Any]:
        while task.status == "running":
            time.sleep(0.001)
            task.look()
        return self.state_(task, keys)

    def state_(self, task: Task, _keys: dict[str, Any]) -> dict[str, Any]:
        end = {"cause": "kill", "exit": 137, "signal": 9} if task.status == "stopped" else {}
        return {"n": task.turns, "status": task.status, **end}

    def step_(self, task: Task, keys: dict[str, Any]) -> dict[str, Any]:
        self.needs(task, "paused")
        task.go_to(task.turns + int(keys["count"]))
        return self.state_(task, keys)

    def break_(self, task: Task, keys: dict[str, Any]) -> dict[str, Any]:
        self.needs(task, "created", "paused")
        if keys["func"] == 0:
            task.breaks.add(int(keys["place"]))
        return {}

    def unbreak_(self, task: Task, keys: dict[str, Any]) -> dict[str, Any]:
        self.needs(task, "created", "paused")
        if keys["func"] == 0:
            task.breaks.remove(int(keys["place"]))
        return {}

    def kill_(self, task: Task, _keys: dict[str, Any]) -> dict[str, Any]:
        task.status = "stopped"
        return {"status": "stopped"}

    def delete_(self, task: Task, keys: dict[str, Any]) -> dict[str, Any]:
        self.needs(task, "stopped")
        del self.tasks[str(keys["id"])]
        return self.state_(task, keys)

    def output_(self, _task: Task, _keys: dict[str, Any]) -> dict[str, Any]:
        return {"hex": "", "size": 0}

    def inspect_(self, task: Task, _keys: dict[str, Any]) -> dict[str, Any]:
        place, count = task.turns % ROUND, (task.turns + 1) // ROUND
        shown: list[list[int]] = [[], [], [count], [count, 1], [count + 1], []]
        return {"n": task.turns, "frames": [{
            "func": 0, "labels": [0] if place else [], "locals": [f"i32:{count}"], "next": place,
            "operands": [f"i32:{number}" for number in shown[place]]}]}


def main() -> int:
    board = Simulation()
    for count, (caller, line) in enumerate(lines_of(sys.argv)):
        keys, reply = json.loads(line), dict[str, Any]()
        try:
            if count >= JOURNAL:
                raise Refused(15)
            reply = {"ok": True, **board.answer(keys.pop("op"), keys)}
        except Refused as refused:
            number = int(refused.args[0])
            reply = {"error": NAMES[number], "number": number, "ok": False}
        caller.reply(json.dumps(reply, separators=(",", ":"), sort_keys=True).encode() + b"\n")
    return 0


if __name__ == "__main__":
    sys.exit(main())
