"""Little memory: `serve` and `run` with a limit of address space."""
from __future__ import annotations

import subprocess
import sys
import tempfile
from pathlib import Path
from typing import Any

from suite.reference import wasm
from suite.reference.execute import Machine
from suite.reference.system_calls import MOST_OUTPUT
from suite.trials import scripts
from suite.trials.modules import digest_of
from suite.trials.program import OUT_OF_MEMORY, Report, Session, line_of, told_once

LIMITS_KIB = range(16 * 1024, 64 * 1024 + 1, 4 * 1024)
MIB = 1024
# The entries of the journal of up to two requests, beside the bytes that these hold, are smaller than this.
MOST_KEPT_KIB = 8
NO_THREAD = b"wasm-shim: a thread cannot be started\n"


def try_least(program: Path, report: Report) -> None:
    """The least limit with which a module is put and a task of it run to its end, for some numbers of workers. A
    limit below that ends the program with one line on standard error."""
    data = scripts.long_code(100)
    lines = [line_of(op="put", hex=data.hex()), *scripts.task("a", digest_of(data))]
    for workers in (1, 2, 4, 16):
        for kib in range(MIB, 1024 * MIB, MIB):
            session = Session(program, ("serve", "--workers", str(workers)), kib=kib)
            replies = session.ask_all(lines)
            status, told = session.close()
            if len(replies) == len(lines) and b'"exit":7' in replies[3] and (status, told) == (0, b""):
                print(f"{workers} workers: serves with {kib // MIB} MiB of address space")
                report.add("numbers of workers with a least limit")
                break
            # With less the loader of the C library may not even come to the program, and says so in its own words.
            if told.startswith(b"wasm-shim: ") and (status != 1 or not told_once(told)):
                report.fault(f"{workers} workers with {kib} KiB: status {status}, {told[:200]!r}")


def try_scripts(program: Path, report: Report) -> None:
    """Runs the script of modules of several sizes at each limit, with one worker and with two."""
    lines = scripts.large_script()
    print("workers, limit of address space: lines asked, refused for memory, then taken, too large by themselves; end")
    for workers in (1, 2):
        for kib in LIMITS_KIB:
            session = Session(program, ("serve", "--workers", str(workers)), kib=kib)
            talk = scripts.talk_to(session, lines)
            status, told = session.close()
            end = end_of(report, f"serve with {workers} workers and {kib} KiB", lines, talk, status, told)
            report.add("scripts with a limit")
            report.add("lines asked", talk.asked)
            report.add("lines refused for memory", talk.refused)
            report.add("lines taken when others were deleted", talk.taken_after)
            print(f"{workers} workers, {kib // MIB:>3} MiB: {talk.asked:>4} {talk.refused:>4} {talk.taken_after:>4} "
                  f"{len(talk.too_large):>4}; {end}")
            check_too_large(program, report, workers, kib, talk.too_large)
            sys.stdout.flush()


def end_of(report: Report, what: str, lines: list[bytes], talk: scripts.Talk, status: int, told: bytes) -> str:
    """How a script ended, and whether that was as it should be."""
    for line, wanted, reply in talk.differing:
        report.differ(what, line, wanted, reply)
    if talk.place is None:
        if status or told:
            report.fault(f"{what}: status {status}, {told!r} after all lines")
        return "all lines were answered"
    if status != 1 or told not in (OUT_OF_MEMORY, NO_THREAD):
        report.fault(f"{what}: status {status}, and {told[:200]!r} on standard error")
    if told == NO_THREAD:
        report.add("scripts for which no worker could be started")
        return "no thread for a worker"
    report.add("scripts that ended for memory")
    return f"ended at line {talk.place + 1} of {len(lines)}: {lines[talk.place][:60]!r}"


def check_too_large(program: Path, report: Report, workers: int, kib: int, lines: list[bytes]) -> None:
    """Whether a line that was refused when nothing else was there is refused by a program that has just begun, too."""
    contents = {digest_of(data): data for data, _ in modules_of_runs()}
    for line in lines:
        session = Session(program, ("serve", "--workers", str(workers)), kib=kib)
        for digest, data in contents.items():
            if digest.encode() in line:
                session.ask(line_of(op="put", hex=data.hex()))
        reply = session.ask(line)
        session.close()
        if reply is not None and b'"ok":true' in reply:
            report.add("lines that only a new program takes")
            print(f"     {line[:70]!r} is taken by a program that has just begun")


def requests_without_trace() -> dict[str, tuple[list[bytes], int]]:
    """Requests of much data after which the board is as it was, made and undone or refused; and how many bytes the
    entries of the journal hold of them: what a line holds, unless it is refused 1."""
    data = bytes(262_144)
    put = line_of(op="put", hex=data.hex())
    return {
        "a put that is removed again": ([put, line_of(op="remove", digest=digest_of(data))], len(data)),
        "a put that is refused 9": ([line_of(op="put", hex=(data + b"x").hex())], len(data) + 1),
        "a put_text that is refused 18": ([line_of(op="put_text", text="a " * 120_000)], 240_000),
        "a create that is refused 10": ([line_of(op="create", id="a", config=" " * 240_000)], 240_000),
        "a state that is refused 2": ([line_of(op="state", id="a" * 240_000)], 240_000),
        "a line that is refused 1": ([line_of(op="none", id="a" * 240_000)], 0),
    }


def try_kept(program: Path, report: Report) -> None:
    """How much memory stays with the program after requests that leave nothing on the board. PROTOCOL.md says that
    the journal keeps each request with all that its line holds, and SECURITY.md that it gives nothing of it back."""
    for name, (lines, held) in requests_without_trace().items():
        session = Session(program)
        session.ask_all(lines * 4)
        before = session.resident()
        session.ask_all(lines * 40)
        kept = (session.resident() - before) / 40 * 1024
        session.close()
        report.add("kinds of requests whose memory was looked at")
        # A list that grew has room for up to the next power of two.
        most = (1 << (held - 1).bit_length() if held else 0) / 1024 + MOST_KEPT_KIB
        print(f"{name}, of {len(lines[0]):,} bytes: {kept:.1f} KiB stay, of at most {most:.0f}")
        if kept > most:
            report.fault(f"{name}, of {len(lines[0]):,} bytes: {kept:.1f} KiB stay with the program, of at most {most:.0f}")


def modules_of_runs() -> list[tuple[bytes, int | None]]:
    sizes = [(scripts.long_code(size), None) for size in (100, 4_000, 60_000, 200_000)]
    return [*sizes, (scripts.writes(1_100, 64), None), (scripts.calls_itself(1_024), None), scripts.grows(16),
            scripts.grows(scripts.PAGES)]


def wanted_of_run(data: bytes) -> tuple[int, bytes, bytes]:
    """The status and the two streams of `run`, by the second reading (docs/COMMANDS.md)."""
    machine = Machine(wasm.Decoder(data).module(), args=["m"])
    machine.run(10**9)
    end: dict[str, Any] = machine.end or {}
    trap = f"trap: {end['trap']}\n" if "trap" in end else ""
    streams = bytes(machine.streams[1]), bytes(machine.streams[2])
    full = "".join(f"standard {name} is full: {MOST_OUTPUT} bytes\n"
                   for name, stream in zip(("output", "error"), streams) if len(stream) == MOST_OUTPUT)
    return end["exit"] % 256, streams[0], streams[1] + (trap + full).encode()


def try_runs(program: Path, report: Report) -> None:
    """`run` of each module at each limit: it does what it does without a limit, or it is refused or ends for memory."""
    with tempfile.TemporaryDirectory(prefix="hostile-") as folder:
        for at, (data, _) in enumerate(modules_of_runs()):
            file, wanted = Path(folder) / f"{at}.wasm", wanted_of_run(data)
            file.write_bytes(data)
            for kib in LIMITS_KIB:
                words = ["sh", "-c", 'ulimit -v "$1"; shift; exec "$@"', "sh", str(kib)]
                done = subprocess.run([*words, program, "run", file], stdin=subprocess.DEVNULL, capture_output=True,
                                      timeout=60, check=False)
                found = done.returncode, done.stdout, done.stderr
                is_refused = done.returncode == 1 and wanted[1].startswith(done.stdout) and done.stderr in (
                    OUT_OF_MEMORY, f"wasm-shim: {file}: out of memory\n".encode())
                if found != wanted and not is_refused:
                    report.fault(f"run of module {at} of {len(data)} bytes with {kib} KiB: {done.returncode}, "
                                 f"{done.stdout[:80]!r}, {done.stderr[:200]!r}")
                report.add("runs that ended for memory" if is_refused else "runs that went as without a limit")


def try_limits(program: Path, report: Report) -> None:
    try_least(program, report)
    try_scripts(program, report)
    try_runs(program, report)
    try_kept(program, report)
