"""`serve --log`, from outside: which events are lines, that an end is told once and unasked, that nothing can be forged."""
from __future__ import annotations

import json
import os
import re
import subprocess
import time
from datetime import datetime, timedelta, timezone
from pathlib import Path
from typing import Any

import pytest

from suite.live import ENDLESS, SHORT, Live, config, line_of
from suite.places import built

pytestmark = pytest.mark.program
TEXT = re.compile(r"log: (?P<time>\S+) (?P<seconds>\d+\.\d{6}) (?:(?P<by>worker|(?:\S+ )?line \d+) )?(?P<event>[a-z-]+)"
                  r"(?P<keys>(?: [a-z]+=\S+)*)")
# A task that traps at its second instruction.
TRAPS = '(module (type $e (func)) (func $s (type $e) nop unreachable) (export "_start" (func $s)))'
JOURNAL = 16_384


def events(told: bytes) -> list[dict[str, Any]]:
    """The lines of a log in JSON, without those of the ends of callers."""
    lines: list[dict[str, Any]] = [json.loads(line) for line in told.splitlines()]
    return [line for line in lines if line["event"] != "caller-ended"]


def of(told: list[dict[str, Any]], event: str) -> list[dict[str, Any]]:
    return [{key: value for key, value in line.items() if key not in ("time", "seconds")}
            for line in told if line["event"] == event]


def serve(lines: list[dict[str, Any]], *words: str) -> tuple[list[dict[str, Any]], bytes]:
    """The replies to these lines by standard input, and what is on standard error."""
    text = b"".join(map(line_of, lines))
    ran = subprocess.run([built(), "serve", "--log", *words], input=text, capture_output=True, check=True)
    return [json.loads(line) for line in ran.stdout.splitlines()], ran.stderr


def json_log(live: Live) -> list[dict[str, Any]]:
    status, told = live.end()
    assert status == 0
    return events(told)


def live(count: int, folder: Path) -> Live:
    return Live(count, "pipes", folder, "--log", "--log-format", "json", "--workers", "1")


def test_an_end_is_told_unasked(tmp_path: Path) -> None:
    with live(1, tmp_path) as shim:
        shim.endless(["a"], SHORT)
        told = b""
        until = time.monotonic() + 30
        while b'"ended"' not in told:
            assert time.monotonic() < until, "no line says that the task has ended"
            time.sleep(0.01)
            told += shim.told()
        assert of(events(told), "ended") == [{"event": "ended", "id": "a", "turns": 3, "cause": "return", "exit": 0}]
        # Asking for it tells nothing again.
        assert shim.owner.ask("wait", id="a")["cause"] == "return"
        assert shim.owner.ask("state", id="a")["cause"] == "return"
        assert of(json_log(shim), "ended") == []


def test_a_kill_ends_a_task_once(tmp_path: Path) -> None:
    with live(2, tmp_path) as shim:
        shim.endless(["a"])
        shim.others[0].send("wait", id="a")
        time.sleep(0.1)
        shim.owner.ask("kill", id="a", signal=9)
        reply = shim.others[0].read()
        assert reply is not None
        told = of(json_log(shim), "ended")
        assert [(line["id"], line["turns"], line["cause"], line["exit"]) for line in told] == [("a", reply["n"], "kill", 137)]


def test_kills_and_steps_of_idle_tasks(tmp_path: Path) -> None:
    with live(1, tmp_path) as shim:
        owner = shim.owner
        digests = [owner.ask("put_text", text=text)["digest"] for text in (ENDLESS, TRAPS)]
        for id, digest in zip("ab", digests):
            assert owner.ask("create", id=id, config=config(digest))["ok"]
        assert owner.ask("kill", id="a", signal=15)["status"] == "stopped"
        owner.ask("start", id="b")
        assert owner.ask("wait", id="b")["trap"] == "unreachable"
        assert owner.ask("delete", id="a")["ok"]
        told = json_log(shim)
        assert [(line["event"], line.get("id")) for line in told if line["event"] != "ended"] == [
            ("created", "a"), ("created", "b"), ("killed", "a"), ("started", "b"), ("deleted", "a")]
        ended = {line["id"]: line for line in of(told, "ended")}
        assert len(of(told, "ended")) == 2
        assert (ended["a"]["turns"], ended["a"]["cause"], ended["a"]["exit"]) == (0, "kill", 143)
        assert (ended["b"]["turns"], ended["b"]["cause"], ended["b"]["trap"]) == (2, "trap", "unreachable")


def test_steps_and_breakpoints(tmp_path: Path) -> None:
    with live(1, tmp_path) as shim:
        owner = shim.owner
        digest = owner.ask("put_text", text=SHORT)["digest"]
        owner.ask("create", id="a", config=config(digest))
        owner.ask("break", id="a", func=0, place=1)
        owner.ask("start", id="a")
        assert owner.ask("wait", id="a")["status"] == "paused"
        owner.ask("unbreak", id="a", func=0, place=1)
        assert owner.ask("step", id="a", count=1)["n"] == 2
        assert owner.ask("step", id="a", count=1000)["cause"] == "return"
        told = json_log(shim)
        assert [line["event"] for line in told if line["event"] != "created"] == [
            "break-set", "started", "break-removed", "stepped", "stepped", "ended"]
        assert [line["turns"] for line in of(told, "stepped")] == [2, 3]


def test_every_end_of_many_is_told_once(tmp_path: Path) -> None:
    ids = [f"t{number}" for number in range(64)]
    with Live(65, "pipes", tmp_path, "--log", "--log-format", "json", "--workers", "4") as shim:
        digest = shim.owner.ask("put_text", text=SHORT)["digest"]
        log = b""
        for _ in range(10):
            for id in ids:
                assert shim.owner.ask("create", id=id, config=config(digest))["ok"] and shim.owner.ask("start", id=id)["ok"]
            for id, caller in zip(ids, shim.others):
                caller.send("wait", id=id)
            assert all((reply := caller.read()) is not None and reply["cause"] == "return" for caller in shim.others)
            for id in ids:
                assert shim.owner.ask("delete", id=id)["ok"]
            log += shim.told()
        told = of(events(log) + json_log(shim), "ended")
        assert sorted(line["id"] for line in told) == sorted(ids * 10)
        assert {(line["turns"], line["cause"], line["exit"]) for line in told} == {(3, "return", 0)}


def test_the_journal_is_told_at_its_marks(tmp_path: Path) -> None:
    lines = [{"op": "state", "id": "a"}] * (JOURNAL + 10)
    replies, told = serve(lines, "--log-format", "json")
    assert [reply["error"] for reply in replies] == ["NotFound"] * JOURNAL + ["JournalFull"] * 10
    assert of(events(told), "journal") == [{"event": "journal", "line": entries, "entries": entries}
                                           for entries in (8_192, 14_746, 16_384)]


def test_both_formats_say_the_same(tmp_path: Path) -> None:
    digest = "sha256:" + "0" * 64
    lines = [{"op": "put_text", "text": SHORT}, {"op": "create", "id": "a", "config": config(digest)}, {"op": "nothing"}]
    before = datetime.now(timezone.utc) - timedelta(seconds=1)
    text = [TEXT.fullmatch(line) for line in serve(lines)[1].decode().splitlines()]
    assert [line and (line["by"], line["event"], line["keys"]) for line in text] == [
        ("line 2", "refused", " id=a number=5 cause=NoContent"), ("line 3", "refused", " number=1 cause=BadRequest"),
        (None, "caller-ended", " lines=3")]
    for line in text:
        assert line is not None
        assert before < datetime.fromisoformat(line["time"].replace("Z", "+00:00")) < datetime.now(timezone.utc)
    told = [json.loads(line) for line in serve(lines, "--log-format", "json")[1].splitlines()]
    assert [(line.get("line"), line["event"]) for line in told] == [(2, "refused"), (3, "refused"), (None, "caller-ended")]
    assert told[0]["id"] == "a" and (told[0]["number"], told[0]["cause"]) == (5, "NoContent")


def test_a_file_name_forges_nothing(tmp_path: Path) -> None:
    name = 'x"\n{"event":"forged"}\nlog: 1'
    (tmp_path / name).write_bytes(line_of({"op": "nothing"}))
    (tmp_path / "y").write_bytes(b"")
    forms: list[list[str]] = [[], ["--log-format", "json"]]
    for words in forms:
        ran = subprocess.run([built(), "serve", "--log", *words, name, "y"], cwd=tmp_path, capture_output=True, check=True)
        lines = ran.stderr.decode().splitlines()
        assert len(lines) == 3
        assert all(line.startswith("{" if words else "log: 2") for line in lines)
    assert [json.loads(line).get("caller") for line in lines][0] == 'x"?{"event":"forged"}?log: 1'


def test_a_file_name_forges_no_reason(tmp_path: Path) -> None:
    name = "x\nwhy: line 1, 4 NotFound: forged\rwhy: y"
    (tmp_path / name).write_bytes(line_of({"op": "state", "id": "a"}))
    (tmp_path / "y").write_bytes(b"")
    ran = subprocess.run([built(), "serve", "--explain", name, "y"], cwd=tmp_path, capture_output=True, check=True)
    lines = ran.stderr.decode().splitlines()
    assert len(lines) == 1 and lines[0].startswith("why: x?why: line 1, 4 NotFound: forged?why: y line 1, 4 NotFound")


def test_standard_error_may_be_closed(tmp_path: Path) -> None:
    lines = line_of({"op": "put_text", "text": SHORT}) + line_of({"op": "nothing"})
    closed = ["/bin/sh", "-c", f"exec {built()} serve --log 2>&-"]
    ran = subprocess.run(closed, input=lines, capture_output=True, check=True)
    assert [json.loads(line)["ok"] for line in ran.stdout.splitlines()] == [True, False]


@pytest.mark.parametrize("words", [["--log-format", "xml"], ["--log-format", ""], ["--log-format"]])
def test_other_formats_are_refused(words: list[str]) -> None:
    ran = subprocess.run([built(), "serve", "--log", *words], stdin=subprocess.DEVNULL, capture_output=True)
    assert (ran.returncode, ran.stdout) == (2, b"")
    assert b"--log-format <FORMAT>" in ran.stderr


def test_a_reader_that_stops_holds_nothing_up_for_ever(tmp_path: Path) -> None:
    """A log that nobody reads fills its pipe; once it is read again, all lines are there."""
    read, write = os.pipe()
    lines = [{"op": "nothing"}] * 3_000
    shim = subprocess.Popen([built(), "serve", "--log"], stdin=subprocess.PIPE, stdout=subprocess.DEVNULL, stderr=write)
    os.close(write)
    with os.fdopen(read, "rb") as log:
        assert shim.stdin is not None
        shim.stdin.write(b"".join(map(line_of, lines)))
        shim.stdin.close()
        time.sleep(0.5)
        assert shim.poll() is None
        assert len(log.read().splitlines()) == len(lines) + 1
    assert shim.wait(timeout=60) == 0
