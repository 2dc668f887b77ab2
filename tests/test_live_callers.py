"""`serve --caller IN:OUT`, from outside: over FIFOs and over pipes that the program inherits.

64 tasks with a caller each that waits, a kill that is heard meanwhile, the end of the owner's lines while all wait; callers
whose streams end, fail, are cut or are not read, which hold up nobody else; a full journal; what idle callers cost; a host
that is killed; command lines that are refused.
"""
from __future__ import annotations

import json
import os
import signal
import subprocess
import sys
import termios
import threading
import time
from pathlib import Path

import pytest

from suite.live import END_SECONDS, SHORT, Caller, Live
from suite.places import TOP, built

pytestmark = pytest.mark.program
BOTH = pytest.mark.parametrize("over", ["fifos", "pipes"])
TASKS = 64
MOST_CALLERS = 130
# What 129 callers more may take: 16 KiB each for the bytes that are read ahead, and their stacks.
MOST_RESIDENT = 8 * 1024 * 1024
IDS = [f"t{number}" for number in range(TASKS)]
# A task that makes some ten thousand turns, and ends.
LONG = ('(module (type $e (func)) (func $s (type $e) (local $i i32) loop $l local.get $i i32.const 1 i32.add local.tee $i '
        'i32.const 2000 i32.lt_u br_if $l end) (export "_start" (func $s)))')
# A host that starts the program in the words after it, says its id, and sleeps.
HOST = """
import os, subprocess, sys, time
pipes = [(*os.pipe(), *os.pipe()) for _ in range(2)]
pairs = [w for a, _, _, b in pipes for w in ("--caller", f"/dev/fd/{a}:/dev/fd/{b}")]
keep = [fd for a, _, _, b in pipes for fd in (a, b)]
child = subprocess.Popen([sys.argv[1], "serve", *pairs], pass_fds=keep, stdin=subprocess.DEVNULL)
for fd in keep:
    os.close(fd)
for data in sys.argv[2:]:
    os.write(pipes[0][1], data.encode() + b"\\n")
print(child.pid, flush=True)
time.sleep(1000)
"""


@BOTH
def test_each_waiter_is_told_its_end(over: str, tmp_path: Path) -> None:
    with Live(1 + TASKS, over, tmp_path) as live:
        live.endless(IDS, LONG)
        for id, caller in zip(IDS, live.others):
            caller.send("wait", id=id)
        for id, caller in zip(IDS, live.others):
            reply = caller.read()
            assert reply is not None and (reply["id"], reply["cause"], reply["status"]) == (id, "return", "stopped")
        assert live.end() == (0, b"")


@BOTH
def test_a_kill_is_heard_while_all_wait(over: str, tmp_path: Path) -> None:
    with Live(1 + TASKS, over, tmp_path) as live:
        live.endless(IDS)
        for id, caller in zip(IDS, live.others):
            caller.send("wait", id=id)
        time.sleep(0.2)
        for number, (id, caller) in enumerate(zip(IDS, live.others)):
            assert live.owner.ask("kill", id=id, signal=9)["ok"]
            reply = caller.read()
            assert reply is not None and (reply["id"], reply["cause"], reply["signal"]) == (id, "kill", 9)
            assert not any(other.has_reply(0) for other in live.others[number + 1:])
        assert live.end() == (0, b"")


@BOTH
def test_the_end_of_the_owner_is_the_end_of_all(over: str, tmp_path: Path) -> None:
    with Live(1 + TASKS, over, tmp_path) as live:
        live.endless(IDS)
        for id, caller in zip(IDS, live.others):
            caller.send("wait", id=id)
        time.sleep(0.2)
        begun = time.monotonic()
        assert live.end() == (0, b"")
        assert time.monotonic() - begun < 4
        for caller in live.others:
            reply = caller.read()
            assert reply is not None and (reply["error"], reply["number"]) == ("Closed", 19)
            assert caller.read() is None
        assert live.owner.read() is None


@BOTH
def test_another_caller_ends_alone(over: str, tmp_path: Path) -> None:
    with Live(3, over, tmp_path) as live:
        live.endless(["a"])
        live.others[1].send("wait", id="a")
        assert live.others[0].ask("state", id="a")["status"] == "running"
        live.others[0].close_lines()
        if over == "fifos":
            assert live.others[0].read() is None
        time.sleep(0.1)
        assert not live.others[1].has_reply(0)
        assert live.owner.ask("kill", id="a", signal=15)["ok"]
        reply = live.others[1].read()
        assert reply is not None and reply["signal"] == 15
        assert live.end() == (0, b"")


@BOTH
def test_replies_that_nobody_reads_end_their_caller_alone(over: str, tmp_path: Path) -> None:
    with Live(3, over, tmp_path) as live:
        live.others[0].close_replies()
        live.others[0].send("gc")
        assert live.others[1].ask("gc") == live.owner.ask("gc") == {"ok": True, "removed": []}
        told = live.tells()
        status, rest = live.end()
        told += rest
        assert (status, told.count(b"\n")) == (1, 1) and b": Broken pipe" in told
        assert over == "pipes" or b"/out1: " in told


@BOTH
def test_a_line_that_is_cut_is_answered(over: str, tmp_path: Path) -> None:
    with Live(3, over, tmp_path) as live:
        os.write(live.others[0].lines, b'{"op":"gc"')
        time.sleep(0.1)
        assert live.others[1].ask("gc")["ok"] and not live.others[0].has_reply(0)
        live.others[0].close_lines()
        reply = live.others[0].read()
        assert reply is not None and reply["number"] == 1
        assert live.others[1].ask("gc")["ok"] and live.owner.ask("gc")["ok"]
        assert live.end() == (0, b"")


@BOTH
def test_a_reader_that_stops_holds_up_nobody(over: str, tmp_path: Path) -> None:
    with Live(3, over, tmp_path) as live:
        stopped = live.others[0]

        def fill() -> None:
            try:
                for _ in range(100):
                    os.write(stopped.lines, 100 * b"nothing\n")
            except OSError:
                pass

        writer = threading.Thread(target=fill, daemon=True)
        writer.start()
        time.sleep(0.5)
        begun = time.monotonic()
        live.endless(["a"])
        live.others[1].send("wait", id="a")
        assert live.owner.ask("kill", id="a", signal=9)["ok"]
        reply = live.others[1].read()
        assert reply is not None and reply["signal"] == 9 and time.monotonic() - begun < 5
        assert live.end() == (0, b"")
        writer.join(timeout=10)
        assert not writer.is_alive()


def test_a_full_journal_is_told_at_once(tmp_path: Path) -> None:
    with Live(3, "pipes", tmp_path, "--workers", "1") as live:
        live.endless(["a"])
        live.others[0].send("wait", id="a")
        line = b'{"op":"state","id":"none"}\n'
        refused = 0
        while refused != 15:
            os.write(live.owner.lines, 128 * line)
            numbers = []
            for _ in range(128):
                reply = live.owner.read()
                assert reply is not None
                numbers.append(reply["number"])
            refused = numbers[-1]
            assert set(numbers) <= {4, 15}
        reply = live.others[0].read()
        assert reply is not None and (reply["error"], reply["number"]) == ("JournalFull", 15)
        assert live.others[1].ask("wait", id="a")["number"] == 15
        assert live.end() == (0, b"")


def resident(pid: int) -> int:
    return int(Path(f"/proc/{pid}/statm").read_text().split()[1]) * os.sysconf("SC_PAGE_SIZE")


def ticks(pid: int) -> dict[str, int]:
    """The processor time of each thread, in ticks of the system's clock."""
    found = {}
    for stat in Path(f"/proc/{pid}/task").glob("*/stat"):
        fields = stat.read_text().rsplit(") ", 1)[1].split()
        found[stat.parent.name] = int(fields[11]) + int(fields[12])
    return found


def busy(pid: int, seconds: float) -> dict[str, int]:
    """The threads that use processor time meanwhile, and how much."""
    before = ticks(pid)
    time.sleep(seconds)
    return {id: used - before.get(id, 0) for id, used in ticks(pid).items() if used != before.get(id, 0)}


def test_callers_that_sleep_cost_nothing(tmp_path: Path) -> None:
    with Live(1, "pipes", tmp_path, "--workers", "1") as live:
        live.endless(["a"])
        time.sleep(0.5)
        alone = resident(live.process.pid)
    with Live(MOST_CALLERS, "pipes", tmp_path, "--workers", "1") as live:
        live.endless(["a"])
        for caller in live.others[1:]:
            caller.send("wait", id="a")
        # Each may run a slice before it sleeps; then only the worker is busy.
        until = time.monotonic() + 60
        while len(busy(live.process.pid, 2)) > 1:
            assert time.monotonic() < until
        assert len(ticks(live.process.pid)) == MOST_CALLERS + 1
        assert len(busy(live.process.pid, 3)) == 1
        more = resident(live.process.pid) - alone
        print(f"{more / 2 ** 20:.1f} MiB for {MOST_CALLERS - 1} callers more")
        assert more <= MOST_RESIDENT
        assert live.end() == (0, b"")


@BOTH
def test_a_reason_is_there_before_its_reply(over: str, tmp_path: Path) -> None:
    with Live(2, over, tmp_path, "--explain") as live:
        for number in range(100):
            assert live.others[0].ask("state", id=f"n{number}")["number"] == 4
            assert live.told().startswith(b"why: ")
        assert live.end() == (0, b"")


def is_there(pid: int) -> bool:
    try:
        return Path(f"/proc/{pid}/stat").read_text().rsplit(") ", 1)[1][0] != "Z"
    except FileNotFoundError:
        return False


@pytest.mark.parametrize("wait", [0.0, 0.05, 0.3])
def test_a_host_that_is_killed_leaves_nothing(wait: float) -> None:
    put = json.dumps({"op": "put_text", "text": SHORT})
    with subprocess.Popen([sys.executable, "-c", HOST, str(built()), put, '{"op":"wait","id":"a"}'],
                          stdout=subprocess.PIPE) as host:
        assert host.stdout is not None
        pid = int(host.stdout.readline())
        time.sleep(wait)
        host.send_signal(signal.SIGKILL)
        host.wait()
        until = time.monotonic() + END_SECONDS
        while is_there(pid):
            assert time.monotonic() < until
            time.sleep(0.01)


def run(*words: str) -> tuple[int, bytes, bytes]:
    done = subprocess.run([built(), "serve", *words], stdin=subprocess.DEVNULL, capture_output=True, timeout=60, check=False)
    return done.returncode, done.stdout, done.stderr


def callers(*pairs: str) -> list[str]:
    return [word for pair in pairs for word in ("--caller", pair)]


@pytest.mark.parametrize("words, cause", [
    (callers("a"), "invalid value 'a' for '--caller <IN:OUT>'"),
    (callers(":b"), "invalid value ':b' for '--caller <IN:OUT>'"),
    (callers("a:"), "invalid value 'a:' for '--caller <IN:OUT>'"),
    (callers("a:x", "b:y", "c:x"), "invalid value 'a:x' for '--caller <IN:OUT>': another caller has its OUT"),
    (callers(*(f"a:{number}" for number in range(MOST_CALLERS + 1))), "130 times at most"),
    ([*callers("a:b"), "script"], "cannot be used with '[SCRIPT]...'"),
], ids=["no colon", "no IN", "no OUT", "one OUT twice", "131 callers", "beside a SCRIPT"])
def test_words_that_are_refused(words: list[str], cause: str, tmp_path: Path) -> None:
    status, out, told = run(*words)
    assert (status, out) == (2, b"") and cause in told.decode().splitlines()[0]


def test_a_file_that_is_not_there(tmp_path: Path) -> None:
    lines, missing = tmp_path / "lines", tmp_path / "missing"
    lines.write_bytes(b'{"op":"gc"}\n')
    outs = [tmp_path / "first", tmp_path / "second"]
    status, out, told = run(*callers(f"{lines}:{outs[0]}", f"{missing}:{outs[1]}"))
    assert (status, out, told.count(b"\n")) == (1, b"", 1) and str(missing) in told.decode()
    # The pair before it is open, and nothing is answered; the pair itself is not made.
    assert outs[0].read_bytes() == b"" and not outs[1].exists()


def test_files_are_callers_too(tmp_path: Path) -> None:
    first = (TOP / "examples/first_run.jsonl").read_bytes()
    lines, out = tmp_path / "lines", tmp_path / "a:b"
    lines.write_bytes(first)
    out.write_bytes(b"of before")
    assert run(*callers(f"{lines}:{out}")) == (0, b"", b"")
    assert out.read_bytes() == (TOP / "examples/first_run.expected").read_bytes()


def test_both_files_of_a_caller_may_be_one(tmp_path: Path) -> None:
    """A terminal, from which lines are read and to which replies are written."""
    host, theirs = os.openpty()
    modes = termios.tcgetattr(theirs)
    modes[1] &= ~termios.OPOST
    modes[3] &= ~termios.ECHO
    termios.tcsetattr(theirs, termios.TCSANOW, modes)
    name = os.ttyname(theirs)
    with subprocess.Popen([built(), "serve", *callers(f"{name}:{name}")], stdin=subprocess.DEVNULL, stdout=subprocess.PIPE,
                          stderr=subprocess.PIPE) as program:
        caller = Caller(host, host)
        assert caller.ask("state", id="a")["number"] == 4
        assert caller.ask("gc")["ok"]
        os.write(host, b"\4")
        assert program.wait(timeout=END_SECONDS) == 0
        assert program.stdout is not None and program.stderr is not None
        assert (program.stdout.read(), program.stderr.read()) == (b"", b"")
    os.close(host)
    os.close(theirs)
