"""`serve --workers N`, from outside: there are as many workers as it says, whoever the callers are, and no other number is
taken; and however many SCRIPTs there are, each is answered."""
from __future__ import annotations

import json
import os
import subprocess
import sys
import time
from pathlib import Path

import pytest

from suite.live import Live, line_of
from suite.places import built

pytestmark = pytest.mark.program
LINUX = pytest.mark.skipif(sys.platform != "linux", reason="threads are counted by /proc")


def has_threads(program: subprocess.Popen[bytes], count: int) -> bool:
    """Whether so many threads are there soon, and no more a little later."""
    def found() -> int:
        return len(os.listdir(f"/proc/{program.pid}/task"))
    until = time.monotonic() + 20
    while found() < count and time.monotonic() < until:
        time.sleep(0.01)
    time.sleep(0.1)
    return found() == count


@LINUX
@pytest.mark.parametrize("more", [(), ("--log",), ("--log", "--log-format", "json")])
@pytest.mark.parametrize(
    "words, workers", [((), 2), (("--workers", "1"), 1), (("--workers", "5"), 5), (("--workers", "16"), 16)])
def test_each_worker_is_a_thread(words: tuple[str, ...], workers: int, more: tuple[str, ...]) -> None:
    with subprocess.Popen([built(), "serve", *words, *more], stdin=subprocess.PIPE, stdout=subprocess.PIPE,
                          stderr=subprocess.DEVNULL) as program:
        assert program.stdin is not None and program.stdout is not None
        program.stdin.write(line_of({"op": "state", "id": "a"}))
        program.stdin.flush()
        assert b"NotFound" in program.stdout.readline()
        # the caller is the thread that began
        assert has_threads(program, 1 + workers)


@LINUX
@pytest.mark.parametrize("scripts, callers", [(1, 0), (2, 2)])
@pytest.mark.parametrize(
    "words, workers", [((), 2), (("--workers", "1"), 1), (("--workers", "5"), 5), (("--workers", "16", "--log"), 16)])
def test_workers_of_scripts(scripts: int, callers: int, words: tuple[str, ...], workers: int, tmp_path: Path) -> None:
    """One SCRIPT is answered by the thread that began, and each of several by a thread of its own."""
    names = [tmp_path / f"script{number}" for number in range(scripts)]
    for name in names:
        os.mkfifo(name)
    with subprocess.Popen([built(), "serve", *words, *names], stdin=subprocess.DEVNULL, stdout=subprocess.PIPE,
                          stderr=subprocess.DEVNULL) as program:
        lines = [os.open(name, os.O_WRONLY) for name in names]
        are_there = has_threads(program, 1 + workers + callers)
        for fd in lines:
            os.close(fd)
        assert are_there


@LINUX
@pytest.mark.parametrize("words, workers", [((), 2), (("--workers", "9"), 9)])
def test_workers_of_live_callers(words: tuple[str, ...], workers: int, tmp_path: Path) -> None:
    """The owner is answered by the thread that began, and each other caller by a thread of its own."""
    with Live(3, "pipes", tmp_path, *words) as live:
        assert all(caller.ask("state", id="a")["number"] == 4 for caller in live.callers)
        assert has_threads(live.process, 1 + workers + 2)
        assert live.end() == (0, b"")


@pytest.mark.parametrize("count", [1, 9, 17, 64])
def test_each_script_is_answered(count: int, tmp_path: Path) -> None:
    """In the order of the SCRIPTs, each with as many lines as its number says."""
    for number in range(count):
        lines = [{"op": "gc"}, *[{"op": "state", "id": "a"}] * (number % 3)]
        (tmp_path / f"s{number}").write_bytes(b"".join(map(line_of, lines)))
    names = [f"s{number}" for number in range(count)]
    ran = subprocess.run([built(), "serve", *names], cwd=tmp_path, stdin=subprocess.DEVNULL, capture_output=True, timeout=60)
    found = [json.loads(line).get("number") for line in ran.stdout.splitlines()]
    assert (ran.returncode, ran.stderr) == (0, b"")
    assert found == [number for script in range(count) for number in (None, *[4] * (script % 3))]


@pytest.mark.parametrize("number", ["0", "17", "-1", "two", ""])
def test_other_numbers_are_refused(number: str) -> None:
    ran = subprocess.run([built(), "serve", f"--workers={number}"], input=b"", capture_output=True, timeout=60)
    assert (ran.returncode, ran.stdout) == (2, b"")
    assert b"--workers <N>" in ran.stderr
