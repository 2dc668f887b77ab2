#!/usr/bin/env python3
"""The second reading of the standards (tests/suite/reference), and a shim that it answers: for tests without the program.

    reference_shim.py serve --caller IN:OUT ..
    reference_shim.py asm FILE      (a file of bytes alone)

A task that is started runs a slice each time that it is asked for its state, and while it is waited for. With the
environment variable EAGER it runs as soon as it is started or resumed, as if there were a worker that is faster than
all requests. Of texts it knows the empty module alone. It gives no reasons of refusals, unless the environment variable
EXPLAIN has one, which it gives for each.
"""
import importlib.util
import json
import os
import sys
from pathlib import Path
from typing import Any

TOP = Path(__file__).resolve().parents[3]
MOST_TURNS, SLICE = 10_000_000, 10_000
EMPTY_MODULE = {"hex": "0061736d01000000"}


def load_second_reading() -> None:
    """Makes the package `suite` of this repository, which has the second reading, one that can be imported."""
    folder = TOP / "tests/suite"
    spec = importlib.util.spec_from_file_location("suite", folder / "__init__.py",
                                                  submodule_search_locations=[str(folder)])
    if spec is None or spec.loader is None:
        raise ImportError(f"there is no package {folder}")
    sys.modules["suite"] = importlib.util.module_from_spec(spec)
    spec.loader.exec_module(sys.modules["suite"])


load_second_reading()
sys.path.insert(0, str(Path(__file__).resolve().parents[1]))

from suite.reference import callers, frames, programs, wasm  # noqa: E402
from suite.reference.board import Board  # noqa: E402
from suite.reference.execute import Machine  # noqa: E402
from tests.stub_callers import Caller, lines_of  # noqa: E402

__all__ = ["Machine", "callers", "frames", "programs", "wasm"]


class SlicedBoard(Board):
    """A board whose tasks run while others ask for them."""

    def state_(self, id: str) -> Any:
        task = self.tasks.get(id)
        if task is not None and task.status == "running":
            task.run(SLICE)
        return super().state_(id)


class EagerBoard(Board):
    """A board whose tasks run at once."""

    def start_(self, id: str) -> Any:
        super().start_(id)
        return self.run_on(id)

    def resume_(self, id: str) -> Any:
        super().resume_(id)
        return self.run_on(id)

    def run_on(self, id: str) -> Any:
        """Runs a task up to a breakpoint or its end; its status is the one that was just answered."""
        task = self.task(id)
        before = task.status
        if before == "running":
            task.run(MOST_TURNS)
        return {"id": id, "ok": True, "status": before}


def read_text(line: bytes) -> bytes:
    """The line; of one that puts the text of the empty module the line that puts its bytes."""
    if b"put_text" not in line or json.loads(line)["text"] != "(module)":
        return line
    return json.dumps({"op": "put", **EMPTY_MODULE}).encode()


class Server:
    """Answers lines. A line that waits for a task is kept while that task runs."""

    def __init__(self) -> None:
        self._board: Board = EagerBoard(False) if os.environ.get("EAGER") else SlicedBoard(False)
        self._reason = os.environ.get("EXPLAIN")
        self._kept: list[tuple[Caller, bytes, Any]] = []

    def go_on(self) -> bool:
        """Makes a slice of each task that is waited for; whether there is one."""
        kept, self._kept = self._kept, []
        for caller, line, task in kept:
            if task.status == "running":
                task.run(SLICE)
            self.take(caller, line)
        return bool(self._kept)

    def take(self, caller: Caller, line: bytes) -> None:
        """Answers a line, or keeps it."""
        if b'"wait"' in line:
            task = self._board.tasks.get(json.loads(line)["id"])
            if task is not None and task.status == "running":
                self._kept.append((caller, line, task))
                return
        reply = self._board.answer(read_text(line))
        found = json.loads(reply)
        if self._reason is not None and not found["ok"]:
            op = json.loads(line)["op"]
            print(f"why: {caller.name} line {caller.count}, {found['number']} {found['error']}: {op}: {self._reason}",
                  file=sys.stderr, flush=True)
        caller.reply(reply + b"\n")


def serve(words: list[str]) -> None:
    """Answers the lines of all callers."""
    server = Server()
    for caller, line in lines_of(words, server.go_on):
        server.take(caller, line)


def main(words: list[str]) -> int:
    if words[:1] == ["serve"]:
        serve(words)
    elif words[:1] == ["asm"]:
        print(Path(words[-1]).read_bytes().hex())
    else:
        return 2
    return 0


if __name__ == "__main__":
    sys.exit(main(sys.argv[1:]))
