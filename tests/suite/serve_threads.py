"""Tries `serve` with workers and several callers, as a supervisor would use it.

    tests/run serve-threads [--storm SECONDS] [PROGRAM]
    tests/run serve-threads --minutes N [PROGRAM]

What is looked at: replies that are read one by one, a kill of a task that never ends, callers that share a board, files
that cannot be read, outputs that nobody reads, the end of input while a task runs, signals; that `--explain --log`
change no reply of several callers, whatever becomes of standard error, and say what they have to; that 64 tasks get
their share of 2 workers, and that a short task ends while others never do; what an idle shim costs; storms of four
callers over a few tasks and contents, with 1, 2 and 4 workers, the replies of which have to be those of one history of
one board (tests/run check-history). Each part prints a line; the status is 1 if one is not as it should be. Build the
program first (make build); PROGRAM, here or in the environment, names another one.

With --minutes there are storms alone, with 4 workers, for N minutes: first a long one, of nearly as many calls as a
board answers, and then many of some 11,000 calls, each with a program of its own, and what memory they need. Their
callers go on in rounds, which are told to the search: without them few long histories can be decided.
"""
from __future__ import annotations

import argparse
import collections
import contextlib
import hashlib
import json
import os
import random
import re
import signal
import subprocess
import tempfile
import time
from collections.abc import Callable, Iterator, Sequence
from pathlib import Path
from typing import Any

from suite.history import report, storms
from suite.places import EXAMPLES, built
from suite.summary import Summary

FIRST_RUN: list[dict[str, Any]] = [json.loads(line) for line in (EXAMPLES / "first_run.jsonl").read_text().splitlines()]
FIRST_REPLIES = (EXAMPLES / "first_run.expected").read_bytes()
ENDLESS = '(module (type $e (func)) (func $s (type $e) loop $l br $l end) (export "_start" (func $s)))'
SHORT = '(module (type $e (func)) (func $s (type $e) nop nop nop) (export "_start" (func $s)))'
MOST_LINES, MOST_RESIDENT = 16_384, 64 * 1024  # KiB
# How long the history of a storm is searched for, and how long once more if it is not decided then.
MOST_STATES, MORE_STATES = 100_000, 2_000_000
# In such a time each round of a storm is answered before the next one is written.
SECONDS_OF_LONG = 10
# The scripts of a caller, how many rounds they have, and the refusals that may come.
KINDS: dict[str, tuple[Callable[[int], list[bytes]], int, tuple[int, ...]]] = {
    "a storm": (storms.life, 500, (3, 4, 11)), "a storm with looks": (storms.looks, 300, (3, 4, 11, 12)),
    "a storm of contents": (storms.stores, 500, (3, 4, 5, 6, 11))}
# A line of standard error with --explain --log: the script, the line, and what it says of it.
SAID = re.compile(rb"(?:why: |log: \S+ [\d.]+ )(\S+) line (\d+),? (\w+)")
# One of an end, which a worker may have brought about or a line; and one of a caller's end.
ENDED = re.compile(rb"log: \S+ [\d.]+ (?:worker|\S+ line \d+) (ended) id=(\w+) ()turns=2 cause=exit exit=7")
CALLER = re.compile(rb"log: \S+ [\d.]+ (\S+) (caller-ended) (lines=\d+)")
# Of requests that are refused after the first run: their numbers.
REFUSED = (1, 4, 11)
failures: list[str] = []
passed: list[str] = []


def line_of(request: dict[str, Any]) -> bytes:
    return json.dumps(request).encode() + b"\n"


def config(digest: str) -> str:
    process = {"args": ["a"], "cwd": "/"}
    return json.dumps({"ociVersion": "1.0.2", "process": process, "annotations": {"dev.shim.module": digest}})


class Caller:
    """A `serve` with one caller, over pipes."""

    def __init__(self, *words: str) -> None:
        self.process = subprocess.Popen([built(), "serve", *words], stdin=subprocess.PIPE, stdout=subprocess.PIPE,
                                        stderr=subprocess.PIPE)
        self.digests: dict[str, str] = {}

    def ask(self, op: str, **members: Any) -> dict[str, Any]:
        """The reply to a request, read before anything else is sent."""
        assert self.process.stdin is not None and self.process.stdout is not None
        self.process.stdin.write(line_of({"op": op, **members}))
        self.process.stdin.flush()
        reply: dict[str, Any] = json.loads(self.process.stdout.readline())
        return reply

    def task(self, id: str, text: str) -> dict[str, Any]:
        """A task of the module that a text denotes, started."""
        if text not in self.digests:
            self.digests[text] = self.ask("put_text", text=text)["digest"]
        self.ask("create", id=id, config=config(self.digests[text]))
        return self.ask("start", id=id)

    def end(self) -> tuple[int, bytes, bytes]:
        """Closes the input; the status, and what is written after that."""
        out, err = self.process.communicate(timeout=60)
        return self.process.returncode, out, err


@contextlib.contextmanager
def serving(*words: str) -> Iterator[Caller]:
    caller = Caller(*words)
    try:
        yield caller
    finally:
        if caller.process.poll() is None:
            caller.process.kill()
        caller.process.wait()


def check(name: str, is_right: bool, told: str = "") -> None:
    print(f"{'ok ' if is_right else 'BAD'} {name}{': ' if told else ''}{told}", flush=True)
    (passed if is_right else failures).append(name)


def run(words: Sequence[str], data: bytes = b"") -> subprocess.CompletedProcess[bytes]:
    return subprocess.run([built(), "serve", *words], input=data, stdout=subprocess.PIPE, stderr=subprocess.PIPE,
                          check=False, timeout=120)


def first_run_as(id: str) -> tuple[bytes, list[dict[str, Any]]]:
    """The requests of the first run for a task of another name, with the replies that they are to have."""
    replies = [json.loads(line) for line in FIRST_REPLIES.splitlines()]
    named = [dict(request, id=id) if "id" in request else request for request in FIRST_RUN]
    wanted = [dict(reply, id=id) if "id" in reply else reply for reply in replies]
    return b"".join(map(line_of, named)), wanted


def try_first_run() -> None:
    for workers in (1, 2, 4, 16):
        for _ in range(25):
            done = run(["--workers", str(workers)], b"".join(map(line_of, FIRST_RUN)))
            if (done.returncode, done.stdout) != (0, FIRST_REPLIES):
                check("the first run", False, f"{workers} workers: {done.stdout!r} {done.stderr!r}")
                return
    check("the first run, 25 times each with 1, 2, 4 and 16 workers", True)


def try_one_by_one() -> None:
    with serving() as caller:
        started = caller.task("a", ENDLESS)
        time.sleep(0.2)
        killed = caller.ask("kill", id="a", signal=9)
        ended = caller.ask("wait", id="a")
        caller.task("b", SHORT)
        short = caller.ask("wait", id="b")
        status, rest, _ = caller.end()
    check("a task that never ends runs at once, and is killed", (started["status"], killed["ok"]) == ("running", True)
          and (ended["cause"], ended["signal"], ended["exit"]) == ("kill", 9, 137) and ended["n"] > 1_000_000,
          f"after {ended['n']} turns")
    check("the next one is run, and the input's end ends it all", (short["cause"], short["n"]) == ("return", 3)
          and (status, rest) == (0, b""))


def try_pause() -> None:
    with serving("--workers", "1") as caller:
        caller.task("a", ENDLESS)
        time.sleep(0.1)
        caller.ask("pause", id="a")
        first, second = caller.ask("wait", id="a"), caller.ask("state", id="a")
        caller.ask("resume", id="a")
        time.sleep(0.1)
        caller.ask("pause", id="a")
        third = caller.ask("wait", id="a")
    check("a paused task makes no turn, and goes on when it is resumed",
          first == second and first["status"] == third["status"] == "paused" and third["n"] > first["n"] > 0)


def try_end_of_input() -> None:
    with serving() as caller:
        caller.task("a", ENDLESS)
        status, rest, told = caller.end()
    check("the end of input while a task runs", (status, rest, told) == (0, b"", b""))


def try_signals() -> None:
    for number in (signal.SIGTERM, signal.SIGINT, signal.SIGHUP):
        with serving() as caller:
            caller.task("a", ENDLESS)
            caller.process.send_signal(number)
            status = caller.process.wait(timeout=10)
        check(f"{number.name} during a slice ends the program", status == -number)


def try_closed_output() -> None:
    with serving() as caller:
        assert caller.process.stdin is not None and caller.process.stdout is not None
        assert caller.process.stderr is not None
        caller.process.stdout.close()
        caller.process.stdin.write(line_of({"op": "state", "id": "a"}))
        caller.process.stdin.close()
        status, told = caller.process.wait(timeout=10), caller.process.stderr.read()
    check("an output that nobody reads", status == 1 and told.count(b"\n") == 1, told.decode().strip())


def try_scripts(folder: Path) -> None:
    files, wanted = list[Path](), list[dict[str, Any]]()
    for number in range(8):
        data, replies = first_run_as(f"t{number}")
        files.append(folder / f"s{number}")
        files[-1].write_bytes(data)
        wanted += replies
    right = 0
    for count in range(50):
        done = run(["--workers", str(random.choice([1, 2, 4])), *map(str, files)])
        found = [json.loads(line) for line in done.stdout.splitlines()]
        right += (done.returncode, done.stderr) == (0, b"") and [
            [(reply.get("status"), reply.get("exit"), reply.get("n"), reply.get("id")) for reply in replies]
            for replies in (found, wanted)][0] == [(reply.get("status"), reply.get("exit"), reply.get("n"),
                                                   reply.get("id")) for reply in wanted]
    check("eight callers share a board, 50 times, and are told in their order", right == 50, f"{right} right")
    done = run([str(files[0])])
    check("one script", (done.returncode, done.stdout) == (0, b"".join(
        json.dumps(reply, separators=(",", ":"), sort_keys=True).encode() + b"\n" for reply in wanted[:5])))
    missing = str(folder / "none")
    done = run([str(files[0]), missing])
    check("a file that is not there", done.returncode == 1 and done.stdout == b"" and missing.encode() in done.stderr,
          done.stderr.decode().strip())
    done = run([str(files[0]), str(folder), str(files[1])])
    found = [json.loads(line).get("id") for line in done.stdout.splitlines()]
    check("a caller whose file fails ends there, and the others go on", done.returncode == 1
          and [id for id in found if id] == ["t0"] * 4 + ["t1"] * 4 and str(folder).encode() in done.stderr,
          done.stderr.decode().strip())
    with open(folder / "full", "wb"), open("/dev/full", "wb") as full:
        done = subprocess.run([built(), "serve", files[0], files[1]], stdin=subprocess.DEVNULL, stdout=full,
                              stderr=subprocess.PIPE, check=False, timeout=60)
    check("several callers and a full disk", done.returncode == 1 and b"standard output" in done.stderr,
          done.stderr.decode().strip())


def sha256_of(data: bytes) -> str:
    return hashlib.sha256(data).hexdigest()


def first_run_of_its_own(id: str) -> bytes:
    """The requests of the first run for a task of this name, over a content that no other has: a custom section names it."""
    content = bytes.fromhex(FIRST_RUN[0]["hex"])
    own = content + bytes([0, 1 + len(id), len(id)]) + id.encode()
    requests = first_run_as(id)[0]
    for old, new in ((content.hex(), own.hex()), (sha256_of(content), sha256_of(own))):
        requests = requests.replace(old.encode(), new.encode())
    return requests


def watched_script(path: Path, id: str) -> list[tuple[bytes, bytes, bytes]]:
    """Writes the first run for a task of this name, and requests that are refused so. What has to be said of them."""
    refused = [b"nothing\n", line_of({"op": "state", "id": "none"}), line_of({"op": "start", "id": id})]
    path.write_bytes(first_run_of_its_own(id) + b"".join(refused))
    said = [(2, "created"), (3, "started")]
    for line, number in enumerate(REFUSED, len(FIRST_RUN) + 1):
        said += [(line, "refused"), (line, str(number))]
    lines = len(FIRST_RUN) + len(refused)
    return [(b"ended", id.encode(), b""), (str(path).encode(), b"caller-ended", f"lines={lines}".encode()),
            *((str(path).encode(), str(line).encode(), what.encode()) for line, what in said)]


def said_in(errors: bytes) -> list[tuple[bytes, ...]] | None:
    """What the lines of standard error say; None for a line that is none of these."""
    found = [ENDED.fullmatch(line) or CALLER.fullmatch(line) or SAID.match(line) for line in errors.splitlines()]
    return None if None in found else sorted(each.groups() for each in found if each is not None)


def try_watched(folder: Path) -> None:
    files = [folder / f"watched{number}" for number in range(3)]
    wanted = sorted(said for number, path in enumerate(files) for said in watched_script(path, f"w{number}"))
    words, options = ["--workers", "2", *map(str, files)], ["--explain", "--log"]
    plain = run(words)
    numbers = [json.loads(line).get("number") for line in plain.stdout.splitlines()]
    check("three callers are answered, and nothing is said", (plain.returncode, plain.stderr) == (0, b"")
          and [number for number in numbers if number] == 3 * list(REFUSED))
    told = [run([*options, *words]) for _ in range(20)]
    check("the same with --explain --log, 20 times, and each is said",
          all((each.returncode, each.stdout) == (0, plain.stdout) and said_in(each.stderr) == wanted for each in told))
    for name, to in (("closed", "2>&-"), ("full", "2>/dev/full")):
        shell = ["sh", "-c", f'exec "$@" {to}', "sh", str(built()), "serve", *options, *words]
        done = subprocess.run(shell, stdin=subprocess.DEVNULL, stdout=subprocess.PIPE, check=False, timeout=120)
        check(f"the same, and standard error is {name}", (done.returncode, done.stdout) == (0, plain.stdout))


def try_words() -> None:
    for words in (["--workers", "0"], ["--workers", "17"], ["--workers", "x"], ["--workers"], ["--worker", "1"]):
        done = run(words)
        check(f"serve {' '.join(words)}", done.returncode == 2 and done.stdout == b"" and done.stderr != b"")


def try_shares() -> None:
    with serving("--workers", "2") as caller:
        digest = caller.ask("put_text", text=ENDLESS)["digest"]
        ids = [f"t{number}" for number in range(64)]
        for id in ids:
            caller.ask("create", id=id, config=config(digest))
        for id in ids:
            caller.ask("start", id=id)
        begin = {id: caller.ask("state", id=id)["n"] for id in ids}
        time.sleep(2)
        made = [caller.ask("state", id=id)["n"] - begin[id] for id in ids]
    mean = sum(made) / len(made)
    spread = max(abs(turns / mean - 1) for turns in made)
    check("64 tasks get their share of 2 workers", spread < 0.1, f"within {100 * spread:.1f} % of {mean:.0f} turns")


def try_short_among_long() -> None:
    with serving("--workers", "2") as caller:
        for number in range(16):
            caller.task(f"t{number}", ENDLESS)
        begin = time.perf_counter()
        caller.task("short", SHORT)
        ended = caller.ask("wait", id="short")
        took = time.perf_counter() - begin
    check("a short task ends while 16 never do", ended["cause"] == "return" and took < 1, f"{1e3 * took:.1f} ms")


def processor_seconds(pid: int) -> float:
    fields = Path(f"/proc/{pid}/stat").read_text().rsplit(") ", 1)[1].split()
    return (int(fields[11]) + int(fields[12])) / os.sysconf("SC_CLK_TCK")


def try_idle() -> None:
    with serving("--workers", "2") as caller:
        digest = caller.ask("put_text", text=SHORT)["digest"]
        for number in range(64):
            caller.ask("create", id=f"t{number}", config=config(digest))
        begin = processor_seconds(caller.process.pid)
        time.sleep(3)
        used = processor_seconds(caller.process.pid) - begin
        resident = int(Path(f"/proc/{caller.process.pid}/statm").read_text().split()[1]) * 4 / 1024
    check("64 tasks that do nothing", used <= 0.01 and resident <= 24, f"{used:.2f} s of 3, {resident:.1f} MiB")


class Storms:
    """Storms of four callers, one after the other, each with a `serve` of its own; what they add up to."""

    def __init__(self, folder: Path) -> None:
        self.folder, self.most = folder, list[int]()
        # Of each kind what its replies were, and whether its histories were found to be legal (None: not decided).
        self.numbers: dict[str, collections.Counter[int]] = collections.defaultdict(collections.Counter)
        self.found: dict[str, collections.Counter[bool | None]] = collections.defaultdict(collections.Counter)

    def blow(self, name: str, workers: int, scripts: list[list[bytes]], refusals: tuple[int, ...],
             seconds: float = 0) -> storms.Storm | None:
        """A storm that is as it should be: it ends, its replies are acceptances and these refusals, all of them
        together are not found to be illegal, and it needs no more memory than others. None of another, which is kept.
        Where the search is given up, the storm is counted as not decided."""
        return self.look_at(name, storms.blown(built(), workers, scripts, self.folder, seconds), workers, refusals)

    def look_at(self, name: str, storm: storms.Storm, workers: int, refusals: tuple[int, ...]) -> storms.Storm | None:
        found = report.report(storm.scripts, storm.printed, most=MOST_STATES, rounds=storm.rounds)
        if found.is_legal is None:
            found = report.report(storm.scripts, storm.printed, most=MORE_STATES, rounds=storm.rounds)
        numbers = storm.numbers()
        self.numbers[name] += numbers
        self.found[name][found.is_legal] += 1
        self.most.append(storm.most)
        told = [f"status {storm.status}"] if storm.status != 0 else []
        told += [storm.errors.decode()] if storm.errors else []
        told += [f"refusals {sorted(numbers)}"] if not set(numbers) <= {0, *refusals} else []
        told += found.lines if found.is_legal is False else []
        told += [f"{storm.most} KiB resident"] if storm.most > MOST_RESIDENT else []
        if told:
            check(f"{name}, workers: {workers}", False, "\n".join([*told, f"kept in {kept(storm)}"]))
        return storm if not told else None

    def blow_each(self, workers: int, seconds_of_long: float = 0) -> bool:
        """Whether a storm of each kind is as it should be, and ten short ones, which are nearly always decided; so are
        long ones if they take some seconds."""
        return all(self.blow(name, workers, [script(count // part) for _ in range(storms.CALLERS)], refusals, seconds)
                   for name, (script, count, refusals) in KINDS.items()
                   for part, seconds in [(1, seconds_of_long)] + 10 * [(50, 0.02)])

    def told_of(self, name: str) -> str:
        """What the storms of one kind add up to."""
        numbers, found = self.numbers[name], self.found[name]
        told = [f"{count} of {number}" if number else f"{count} accepted" for number, count in sorted(numbers.items())]
        return (f"{name}: {found[True]} legal, {found[None]} not decided; {numbers.total()} replies: "
                f"{', '.join(told)}")

    def __str__(self) -> str:
        return "; ".join([*map(self.told_of, self.numbers),
                          f"at most {min(self.most, default=0)} to {max(self.most, default=0)} KiB resident"])


def kept(storm: storms.Storm) -> Path:
    """A folder with the scripts and the replies of a storm."""
    folder = Path(tempfile.mkdtemp(prefix="storm-"))
    for number, script in enumerate(storm.scripts):
        (folder / f"script{number}").write_bytes(script)
    (folder / "replies").write_bytes(storm.printed)
    return folder


def try_storms(folder: Path, seconds: float) -> None:
    for workers in (1, 2, 4):
        found, end, count = Storms(folder), time.monotonic() + seconds / 3, 0
        while count == 0 or time.monotonic() < end:
            if not found.blow_each(workers):
                return
            count += 11 * len(KINDS)
        check(f"{count} storms of four callers, workers: {workers}", True, str(found))


def try_live_storms(folder: Path, seconds: float) -> None:
    """Storms of 4 live callers with ten rounds, and of 32 with four lines each. Every one of them is decided."""
    for callers, part, lines in ((4, 50, None), (32, 500, 4)):
        found, end, count = Storms(folder), time.monotonic() + seconds, 0
        while count == 0 or time.monotonic() < end:
            for name, (script, size, refusals) in KINDS.items():
                scripts = [b"".join(script(max(1, size // part))).splitlines(keepends=True)[:lines] for _ in range(callers)]
                if found.look_at(name, storms.blown_live(4, scripts, folder), 4, refusals) is None:
                    return
                count += 1
        is_decided = not any(kind[None] for kind in found.found.values())
        check(f"{count} storms of {callers} live callers, workers: 4", is_decided, str(found))


def try_long_storm(folder: Path, seconds: float) -> None:
    """A storm of nearly as many calls as a board answers, over a time, with what is resident as it goes on."""
    found = Storms(folder)
    scripts = [storms.life(MOST_LINES // 4 // len(storms.LIFE)) for _ in range(storms.CALLERS)]
    storm = found.blow("a long storm", 4, scripts, (3, 4, 11), seconds)
    if storm is not None:
        at = [storm.resident[len(storm.resident) * part // 10] for part in (1, 5, 9)]
        check(f"a storm of {seconds:.0f} seconds, workers: 4", True,
              f"{found}; {at[0]} KiB after a tenth of it, {at[1]} after five and {at[2]} after nine")


def try_minutes(folder: Path, minutes: float) -> None:
    """Storms for so many minutes, the first of which takes a fifth of them."""
    end, found, count = time.monotonic() + 60 * minutes, Storms(folder), 0
    try_long_storm(folder, 12 * minutes)
    while not failures and (count == 0 or time.monotonic() < end):
        found.blow_each(4, seconds_of_long=SECONDS_OF_LONG)
        count += 11 * len(KINDS)
    check(f"{count} storms of four callers, workers: 4", not failures, str(found))


def try_journal() -> None:
    line = line_of({"op": "state", "id": "zz"})
    done = run([], line * 16_386 + b"nothing\n")
    found = [json.loads(reply).get("number") for reply in done.stdout.splitlines()]
    check("16,384 requests are answered, and the next are refused 15", done.returncode == 0
          and found == [4] * 16_384 + [15, 15, 1])


def words_of(words: list[str]) -> argparse.Namespace:
    parser = argparse.ArgumentParser(prog="tests/run serve-threads", description=__doc__,
                                     formatter_class=argparse.RawDescriptionHelpFormatter)
    parser.add_argument("--storm", type=float, default=5, metavar="SECONDS")
    parser.add_argument("--minutes", type=float, metavar="N")
    parser.add_argument("program", nargs="?", metavar="PROGRAM")
    return parser.parse_args(words)


def main(words: list[str]) -> int:
    given = words_of(words)
    if given.program is not None:
        os.environ["PROGRAM"] = given.program
    built()
    # What a shell starts in the background ignores some signals, and so would the programs that are started here.
    signal.signal(signal.SIGINT, signal.default_int_handler)
    signal.signal(signal.SIGHUP, signal.SIG_DFL)
    with tempfile.TemporaryDirectory() as name:
        folder = Path(name)
        if given.minutes is not None:
            try_minutes(folder, given.minutes)
            return Summary("serve-threads", len(passed), len(failures)).end()
        for part in (try_first_run, try_one_by_one, try_pause, try_end_of_input, try_signals, try_closed_output,
                     try_words):
            part()
        try_scripts(folder)
        try_watched(folder)
        for part in (try_shares, try_short_among_long, try_idle, try_journal):
            part()
        try_storms(folder, given.storm)
        try_live_storms(folder, given.storm / 2)
    return Summary("serve-threads", len(passed), len(failures)).end()
