"""Allocations that are refused one by one, or all from one on: what each comes to, and where those are made that
end the program."""
from __future__ import annotations

import bisect
import collections
import functools
import itertools
import os
import re
import subprocess
import sys
import tempfile
from dataclasses import dataclass, field
from pathlib import Path

from suite.trials import scripts
from suite.trials.program import NO_MEMORY, TOP, Report, Session, agree, operation_of, told_once

SOURCE = TOP / "tests/suite/refuse_allocations.c"
ALL = 2**60
# How allocations are refused: the number of those in a row, whether only those by realloc are counted, and how
# often a call is made again.
MODES = {"one alone": (1, False, 1), "one of realloc alone": (1, True, 1), "ten in a row": (10, False, 10),
         "all from one on": (ALL, False, 0)}
# What the program is doing, by the functions that have called an allocation; the first that fits counts.
PHASES = {
    "the line of a reply is written": ("request_lines::reply_line", "request_lines::reply_value",
                                       "file_commands::replay::write"),
    "a line is read as JSON": ("request_lines::members", "request_lines::values", "request_lines::parse_event"),
    "lines are stored": ("request_lines::line_reader", "file_commands::replay::Script", "wasm_shim::files::read"),
    "the command line is taken": ("wasm_shim::arguments",),
    "the command line is understood": ("file_commands::command",),
    "the cells of the journal are made": ("call_journal::cells",),
    "the queue of tickets is made": ("slice_workers::tickets",),
    "a slice is taken": ("task_board::run::take",),
    "the tables of the board are made": ("task_board::board::Board::new",
                                         "task_board::waiting", "task_board::run::run_all"),
    "a thread is started": ("slice_workers::working", "callers::living", "the C library"),
}
# The crates of this repository, of which the innermost function is told.
OWN = frozenset(folder.name for folder in (TOP / "crates").iterdir() if folder.is_dir())


def library(folder: str) -> Path:
    """The library that refuses allocations, which `tests/run refuse-allocations` uses too."""
    built = Path(folder) / "refuse.so"
    words = ["cc", "-O1", "-Wall", "-fno-builtin", "-fno-omit-frame-pointer", "-shared", "-fPIC"]
    subprocess.run([*words, "-o", built, SOURCE], check=True)
    return built


class Symbols:
    """The functions of the program's file, by their offsets."""

    def __init__(self, program: Path) -> None:
        told = subprocess.run(["nm", program], capture_output=True, check=False).stdout.decode(errors="replace")
        found = sorted((int(line[:16], 16), line[19:]) for line in told.splitlines() if line[17:18] in "tT")
        self.offsets, self.names = [offset for offset, _ in found], [name for _, name in found]

    def name_of(self, offset: int) -> str:
        at = bisect.bisect(self.offsets, offset - 1) - 1
        return re.sub(r"::<.*|^<|>$", "", self.names[at]) if at >= 0 else "?"

    def chain_of(self, told: str) -> tuple[str, list[str]]:
        """The call of a refused allocation, and the functions that made it, the innermost first."""
        call, _size, *offsets = told.split()
        return call, [self.name_of(int(offset, 16)) for offset in offsets if not offset.endswith("!")]

    def phase_of(self, told: str) -> str:
        """What the program was doing."""
        call, chain = self.chain_of(told)
        names = ["the C library"] if call == "calloc" else chain
        found = (phase for phase, marks in PHASES.items() if any(name.startswith(marks) for name in names))
        return next(found, "another")

    def place_of(self, told: str) -> str:
        """Where a refused allocation was made: the innermost function of this repository, with the kit's crate that it
        had called, and the function of `main` below."""
        call, chain = self.chain_of(told)
        if call == "calloc":
            return "the C library, for a new thread"
        own = next((name for name in chain if name.split("::")[0] in OWN), None)
        if own is None:
            return chain[-1] if chain else "a function whose name the program's file does not have"
        inner = [name.split("::")[0] for name in chain[:chain.index(own)]]
        kit = [crate for crate in inner if crate not in ("core", "std", "alloc", "libc", "malloc", "realloc")]
        return f"{own}{f', in {kit[-1]}' if kit else ''}"


@dataclass
class Run:
    """What came of a script of which allocations were refused. `replies`: those by line, None for a line that was
    left out since it was refused for memory each time. `ended_at`: the number of the line at which the program
    ended."""

    replies: list[bytes | None] = field(default_factory=list)
    refused_lines: list[bytes] = field(default_factory=list)
    ended_at: int | None = None
    status: int = 0
    told: bytes = b""
    refusals: list[str] = field(default_factory=list)


@dataclass(frozen=True)
class Way:
    """A way to run the script: its words, and its lines."""

    name: str
    lines: tuple[bytes, ...]

    def is_replay(self) -> bool:
        return self.name == "replay"

    @functools.cache
    def wanted(self, left_out: frozenset[int]) -> list[bytes]:
        """What the lines are answered by the second reading, but for those that are left out."""
        model = scripts.Model(self.is_replay())
        return [b"" if at in left_out else model.answer(line) for at, line in enumerate(self.lines)]


def environment_of(built: Path, first: int, count: int, only_realloc: bool, places: int) -> dict[str, str]:
    return {"LD_PRELOAD": str(built), "REFUSE_FIRST": str(first), "REFUSE_COUNT": str(count),
            "REFUSE_ONLY": "realloc" if only_realloc else "", "REFUSE_PLACES": str(places)}


def ask_script(program: Path, way: Way, words: dict[str, str], places: int, again: int) -> Run:
    """Asks the lines of a `serve` one after another; a line that is refused for memory is asked again."""
    session, run = Session(program, ("serve", "--workers", "1"), environment=words, descriptors=(places,)), Run()
    for at, line in enumerate(way.lines):
        reply = session.ask(line)
        for _ in range(again):
            if reply == NO_MEMORY:
                run.refused_lines.append(line)
                reply = session.ask(line)
        if reply is None:
            run.ended_at = at
            break
        if reply == NO_MEMORY:
            run.refused_lines.append(line)
        run.replies.append(None if reply == NO_MEMORY else reply)
    run.status, run.told = session.close()
    return run


def replay_script(program: Path, way: Way, words: dict[str, str], places: int, script: Path) -> Run:
    """Runs the lines as one list of events."""
    done = subprocess.run([program, "replay", script], capture_output=True, env={**os.environ, **words},
                          pass_fds=(places,), timeout=60, check=False)
    run = Run(status=done.returncode, told=done.stderr)
    for line, reply in zip(way.lines, done.stdout.splitlines()):
        run.replies.append(None if reply == NO_MEMORY else reply)
        run.refused_lines += [line] * (reply == NO_MEMORY)
    if done.returncode or len(run.replies) < len(way.lines):
        run.ended_at = len(run.replies)
    return run


def check_run(report: Report, what: str, way: Way, run: Run, only_one: bool) -> None:
    """The replies that are there are those of a run with memory in which the lines left out were not asked."""
    left_out = frozenset(at for at, reply in enumerate(run.replies) if reply is None)
    for line, want, reply in zip(way.lines, way.wanted(left_out), run.replies):
        if reply is not None and not agree(line, want, reply):
            report.differ(what, line, want, reply)
            return
    told = run.told.replace(b"refused\n", b"")
    if run.ended_at is None and (run.status or told):
        report.fault(f"{what}: status {run.status}, {told[:200]!r} on standard error")
    if run.ended_at is not None and (run.status != 1 or not told_once(told)):
        report.fault(f"{what}: ended with status {run.status}, and {told[:200]!r} on standard error")
    if run.ended_at is not None and way.is_replay() and run.replies:
        report.fault(f"{what}: {len(run.replies)} answers of a replay that ended")
    if only_one and len(run.refused_lines) > 1:
        report.fault(f"{what}: NoMemory {len(run.refused_lines)} times")


class Table:
    """How often what came of a refused allocation, and where it was made."""

    def __init__(self, symbols: Symbols) -> None:
        self.symbols = symbols
        self.outcomes: collections.Counter[str] = collections.Counter()
        self.refused: collections.Counter[str] = collections.Counter()
        self.phases: collections.Counter[str] = collections.Counter()
        self.ends: dict[str, collections.Counter[str]] = {}
        self.requests: dict[str, collections.Counter[str]] = {}
        self.unnoticed: list[str] = []

    def count(self, way: Way, run: Run) -> None:
        if run.ended_at is None:
            self.outcomes["answered by NoMemory" if run.refused_lines else "not noticed"] += 1
            self.refused.update({operation_of(line) for line in run.refused_lines})
            self.unnoticed += [] if run.refused_lines else [self.symbols.place_of(run.refusals[-1])]
            return
        self.outcomes["ended the program"] += 1
        told = run.told.replace(b"refused\n", b"").decode().strip().removeprefix("wasm-shim: ")
        told = "the file: " + told.rpartition(": ")[2] if told.startswith("/") else told
        phase = f"{self.symbols.phase_of(run.refusals[-1])} ({told})"
        self.phases[phase] += 1
        self.ends.setdefault(phase, collections.Counter())[self.symbols.place_of(run.refusals[-1])] += 1
        if not way.is_replay() and run.ended_at:
            self.requests.setdefault(phase, collections.Counter())[operation_of(way.lines[run.ended_at])] += 1

    def tell(self) -> None:
        """Prints the table: what ended the program by what it was doing, and the functions that took the memory."""
        for outcome, times in sorted(self.outcomes.items()):
            print(f"  {times:>5} {outcome}")
        by_request = ", ".join(f"{times} {op}" for op, times in self.refused.most_common())
        print(f"  answered by NoMemory, by request: {by_request or 'none'}")
        if self.unnoticed:
            print(f"  not noticed: {', '.join(sorted(set(self.unnoticed)))}")
        for phase, times in self.phases.most_common():
            print(f"  {times:>5} ended where {phase}")
            if phase in self.requests:
                print("        at " + ", ".join(f"{count} {op}" for op, count in self.requests[phase].most_common()))
            for place, count in self.ends[phase].most_common():
                print(f"        {count:>4} {place}")
        sys.stdout.flush()


def try_mode(program: Path, report: Report, way: Way, mode: str, folder: str, symbols: Symbols, built: Path) -> None:
    count, only_realloc, again = MODES[mode]
    table, script = Table(symbols), Path(folder) / "script"
    script.write_bytes(b"".join(line + b"\n" for line in way.lines))
    for first in itertools.count(1):
        with tempfile.TemporaryFile() as places:
            words = environment_of(built, first, count, only_realloc, places.fileno())
            run = (replay_script(program, way, words, places.fileno(), script) if way.is_replay()
                   else ask_script(program, way, words, places.fileno(), again))
            places.seek(0)
            run.refusals = places.read().decode().splitlines()
        if b"refused\n" not in run.told:
            break
        check_run(report, f"{way.name}, allocations refused, {mode}, {first}", way, run, count == 1)
        table.count(way, run)
        if len(report.faults) > 20:
            break
    report.add(f"allocations refused in {way.name}, {mode}", first - 1)
    for outcome, times in table.outcomes.items():
        report.add(f"{outcome} in {way.name}, {mode}", times)
    print(f"{way.name}, allocations refused, {mode}: {first - 1}")
    table.tell()


def try_allocations(program: Path, report: Report) -> None:
    """Asks the script of all requests with allocations refused, and says what came of each: how many were not
    noticed, were answered by NoMemory, or ended the program, and where."""
    symbols = Symbols(program)
    with tempfile.TemporaryDirectory(prefix="hostile-") as folder:
        built = library(folder)
        for way in (Way("serve", tuple(scripts.small_script())), Way("replay", tuple(scripts.small_replay()))):
            for mode in MODES:
                if way.is_replay() and mode == "ten in a row":
                    continue
                try_mode(program, report, way, mode, folder, symbols, built)
