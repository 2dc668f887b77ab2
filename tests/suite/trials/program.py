"""The program under trial: sessions of `serve` line by line, scripts of `replay`, and what was found."""
from __future__ import annotations

import collections
import json
import os
import re
import subprocess
import sys
import tempfile
import threading
from dataclasses import dataclass, field
from pathlib import Path
from typing import Any

TOP = Path(__file__).resolve().parents[3]
NO_MEMORY = b'{"error":"NoMemory","number":17,"ok":false}'
OUT_OF_MEMORY = b"wasm-shim: out of memory\n"
# Requests of a `serve` (docs/PROTOCOL.md); a session is left for a new one before it has as many.
MOST_REQUESTS = 16_384
MOST_SHOWN = 300


@dataclass
class Report:
    """What a part of the trials counted, and what was wrong."""

    part: str
    counts: collections.Counter[str] = field(default_factory=collections.Counter)
    faults: list[str] = field(default_factory=list)

    def add(self, what: str, count: int = 1) -> None:
        self.counts[what] += count

    def fault(self, text: str) -> None:
        self.faults.append(text)
        print(f"WRONG   {self.part}: {text}")
        sys.stdout.flush()

    def differ(self, what: str, line: bytes, wanted: bytes, found: bytes | None) -> None:
        """A reply that is not the one wanted. Long texts are cut, and the whole line goes into a file."""
        with tempfile.NamedTemporaryFile(prefix="hostile-", suffix=".jsonl", delete=False) as file:
            file.write(line + b"\n")
        self.fault(f"{what}\n  line    {line[:MOST_SHOWN]!r} ({len(line)} bytes, in {file.name})"
                   f"\n  wanted  {wanted[:MOST_SHOWN]!r}\n  answer  {found if found is None else found[:MOST_SHOWN]!r}")

    def told(self) -> str:
        counts = ", ".join(f"{count} {what}" for what, count in self.counts.items())
        return f"{self.part}: {counts}; {len(self.faults) or 'nothing'} wrong"


def line_of(**members: Any) -> bytes:
    """The line of a request. A key that is a word of Python has a `_` after it."""
    return json.dumps({key.rstrip("_"): value for key, value in members.items()}, ensure_ascii=False).encode()


def config_of(digest: str, limit: int | None = None, args: tuple[str, ...] = ("a",), **more: Any) -> str:
    """A config for a content; `limit` is in bytes."""
    config: dict[str, Any] = {"ociVersion": "1.0.2", "process": {"args": list(args), "cwd": "/", **more},
                              "annotations": {"dev.shim.module": digest}}
    if limit is not None:
        config["linux"] = {"resources": {"memory": {"limit": limit}}}
    return json.dumps(config, ensure_ascii=False)


def told_once(told: bytes) -> bool:
    """Whether standard error has what a program says that ends with status 1: one line, with its name
    (docs/PROTOCOL.md)."""
    return told.startswith(b"wasm-shim: ") and told.endswith(b"\n") and told.count(b"\n") == 1


def operation_of(line: bytes) -> str:
    found = re.match(rb'.*"op": ?"([a-z_]*)"', line)
    return found[1].decode() if found else "line that is no request"


def agree(line: bytes, wanted: bytes, reply: bytes) -> bool:
    """Whether a reply is the one wanted. Of tasks named `loop..`, which run while other lines are asked, it is open
    how many turns they have made, and whether a slice of them is out."""
    return reply == wanted or (b'"loop' in line and settled(reply) == settled(wanted))


def settled(reply: bytes) -> dict[str, Any]:
    """A reply without what is open of a task that runs."""
    told: dict[str, Any] = json.loads(reply)
    told.pop("n", None)
    told.pop("frames", None)
    if told.get("status") in ("running", "pausing", "paused", "stopped") and "cause" not in told:
        told["status"] = "running"
    return told


def number_of(reply: bytes) -> int:
    """The number of a refusal; 0 of an accepted request."""
    number: int = json.loads(reply).get("number", 0)
    return number


class Session:
    """A `serve` that runs. `kib`: its limit of address space; `environment`: more variables for it; `descriptors`: open
    files that it gets."""

    def __init__(self, program: Path, words: tuple[str, ...] = ("serve",), kib: int | None = None,
                 environment: dict[str, str] | None = None, descriptors: tuple[int, ...] = ()) -> None:
        command = [str(program), *words]
        if kib is not None:
            command = ["sh", "-c", 'ulimit -v "$1"; shift; exec "$@"', "sh", str(kib), *command]
        self.asked = 0
        self.errors = tempfile.TemporaryFile()
        self.process = subprocess.Popen(command, stdin=subprocess.PIPE, stdout=subprocess.PIPE, stderr=self.errors,
                                        bufsize=1 << 16, env={**os.environ, **(environment or {})},
                                        pass_fds=descriptors)

    def has_room(self, lines: int) -> bool:
        """Whether this many lines more are answered, by the most requests of a `serve`."""
        return self.asked + lines <= MOST_REQUESTS

    def send(self, lines: list[bytes]) -> None:
        assert self.process.stdin is not None
        self.asked += len(lines)
        try:
            self.process.stdin.write(b"".join(line + b"\n" for line in lines))
            self.process.stdin.flush()
        except BrokenPipeError:
            pass  # the program has ended, which the missing reply shows

    def read(self) -> bytes | None:
        """The next reply; None if the program has ended."""
        assert self.process.stdout is not None
        reply = self.process.stdout.readline()
        return reply[:-1] if reply.endswith(b"\n") else None

    def ask(self, line: bytes) -> bytes | None:
        self.send([line])
        return self.read()

    def ask_all(self, lines: list[bytes]) -> list[bytes]:
        """The replies to lines that are all sent before the first reply is read; fewer if the program ended."""
        writer = threading.Thread(target=self.send, args=(lines,))
        writer.start()
        replies = []
        for _ in lines:
            reply = self.read()
            if reply is None:
                break
            replies.append(reply)
        writer.join()
        return replies

    def used(self) -> float:
        """The seconds of processor time that the program's threads have used."""
        threads = Path(f"/proc/{self.process.pid}/task").iterdir()
        return sum(int((thread / "schedstat").read_text().split()[0]) for thread in threads) / 1e9

    def resident(self, field: str = "VmRSS") -> float:
        """The memory, in MiB, that the program has; `VmHWM`: the most that it has had at a time."""
        found = re.search(rf"{field}:\s+(\d+) kB", Path(f"/proc/{self.process.pid}/status").read_text())
        return int(found[1]) / 1024 if found else 0.0

    def close(self, seconds: float = 60) -> tuple[int, bytes]:
        """Ends the input. Returns the status, negative for a signal, and what is on standard error."""
        assert self.process.stdin is not None and self.process.stdout is not None
        try:
            self.process.stdin.close()
        except BrokenPipeError:
            pass
        try:
            status = self.process.wait(seconds)
        except subprocess.TimeoutExpired:
            self.process.kill()
            status = self.process.wait()
        self.process.stdout.close()
        self.errors.seek(0)
        told = self.errors.read()
        self.errors.close()
        return status, told


def replay(program: Path, lines: list[bytes]) -> list[bytes]:
    """The answers to a script of events."""
    with tempfile.NamedTemporaryFile() as file:
        file.write(b"".join(line + b"\n" for line in lines))
        file.flush()
        run = subprocess.run([program, "replay", file.name], stdout=subprocess.PIPE, check=True)
    return run.stdout.split(b"\n")[:-1]
