"""Storms: callers that share a board, each with a script of its own, and what `serve` prints and needs for them."""
import collections
import json
import os
import random
import re
import select
import subprocess
import threading
import time
import typing
from pathlib import Path

from suite.history.calls import lines_in, reply_in
from suite.history.written import request_as
from suite.live import Live

LIFE = ["create {} endless", "start {}", "pause {}", "kill {}", "resume {}", "delete {}"]
STORE = ["put short", "put short", "put endless", "remove short", "remove endless", "gc", "lease_create l",
         "lease_add l short", "lease_add l endless", "lease_delete l", "create x short", "create x short", "kill x",
         "delete x", "create y endless", "kill y", "delete y"]
CALLERS, LIMIT = 4, 600  # how many there are, and how many seconds a storm may take


class Storm(typing.NamedTuple):
    """What came of a storm: its status, what was printed, and the KiB resident, now and again and at the most. If it took
    a time, for each round how many lines of each caller came before its end, and so, most likely, were answered then."""
    scripts: list[bytes]
    status: int
    printed: bytes
    errors: bytes
    resident: list[int]
    most: int
    rounds: list[list[int]]

    def numbers(self) -> collections.Counter[int]:
        """How many replies are refusals with each number; 0 stands for those that were accepted, -1 for what is no
        reply."""
        replies = map(reply_in, lines_in(self.printed))
        return collections.Counter(-1 if reply is None else reply.get("number", 0) for reply in replies)


def script_of(puts: list[str], rounds: typing.Iterable[list[str]]) -> list[bytes]:
    """A script in parts: what is put first, and rounds of calls."""
    parts = [[request_as(*words.split()) for words in part] for part in (puts, *rounds)]
    return [b"".join(json.dumps(request).encode() + b"\n" for request in part) for part in parts]


def life(count: int) -> list[bytes]:
    """The whole life of a task that never ends, again and again, under one of two ids that all callers share."""
    ids = random.choices("xy", k=count)
    return script_of(["put endless"], ([words.format(id) for words in LIFE] for id in ids))


def looks(count: int) -> list[bytes]:
    """The same with looks at the task between, and at times a task that ends by itself, for which callers wait."""
    return script_of(["put endless", "put short"], (look(random.choice("xys")) for _ in range(count)))


def stores(count: int) -> list[bytes]:
    """Contents that come and go, and leases and tasks that hold them."""
    return script_of([], (random.sample(STORE, 6) for _ in range(count)))


def look(id: str) -> list[str]:
    if id == "s":
        calls = ["create {} short", "start {}", random.choice(["wait {}", "pause {}", "state {}"]),
                 random.choice(["output {}", "resume {}", "kill {}"]), "wait {}", "delete {}"]
    else:
        at_rest = random.choice(["inspect {}", "output {}", "step {} 3", "state {}"])
        calls = ["create {} endless", "start {}", "state {}", "pause {}", at_rest, "resume {}",
                 random.choice(["kill {}", "kill {} 15"]), "state {}", "delete {}"]
    return [words.format(id) for words in calls]


# ---- memory


def resident(pid: int, key: str) -> int:
    """KiB of memory of a process: those resident now (VmRSS) or at the most so far (VmHWM); 0 once it has ended."""
    try:
        found = re.search(rf"{key}:\s+(\d+)", Path(f"/proc/{pid}/status").read_text())
    except OSError:
        return 0
    return int(found.group(1)) if found else 0


# ---- one storm


def blown(program: Path, workers: int, scripts: list[list[bytes]], folder: Path, seconds: float = 0) -> Storm:
    """Runs `serve` on scripts. If seconds are given, its callers are pipes, to which a round at a time is written, so
    that it takes so long."""
    files = [folder / f"storm{number}" for number in range(len(scripts))]
    for file, parts in zip(files, scripts):
        file.unlink(missing_ok=True)
        os.mkfifo(file) if seconds else file.write_bytes(b"".join(parts))
    process = subprocess.Popen([program, "serve", "--workers", str(workers), *files], stdin=subprocess.DEVNULL,
                               stdout=subprocess.PIPE, stderr=subprocess.PIPE)
    if seconds:
        threading.Thread(target=feed, args=(files, scripts, seconds), daemon=True).start()
    samples, end = [resident(process.pid, "VmRSS")], time.monotonic() + seconds + LIMIT
    assert process.stdout is not None
    while not select.select([process.stdout], [], [], 0.05)[0] and time.monotonic() < end:
        samples.append(resident(process.pid, "VmRSS"))
    if time.monotonic() >= end:
        process.kill()
    # All callers have ended, and what is printed does not fit into the pipe: the program is still there.
    most = max(*samples, resident(process.pid, "VmHWM"))
    printed, errors = process.communicate()
    rounds = rounds_of(scripts) if seconds else []
    return Storm([b"".join(parts) for parts in scripts], process.returncode, printed, errors, samples, most, rounds)


def blown_live(workers: int, scripts: list[list[bytes]], folder: Path) -> Storm:
    """The same by live callers beside an owner. A line of each is written, and then the replies to all are read: a round."""
    parts = [b"".join(script).splitlines(keepends=True) for script in scripts]
    printed: list[list[bytes]] = [[] for _ in scripts]
    rounds, samples = list[list[int]](), list[int]()
    with Live(1 + len(scripts), "pipes", folder, "--workers", str(workers)) as live:
        for number in range(max(map(len, parts))):
            asked = [each for each in zip(live.others, parts, printed) if number < len(each[1])]
            for caller, lines, _ in asked:
                os.write(caller.lines, lines[number])
            for caller, _, told in asked:
                told.append(json.dumps(caller.read(), separators=(",", ":")).encode() + b"\n")
            rounds.append([min(number + 1, len(lines)) for lines in parts])
            samples.append(resident(live.process.pid, "VmRSS"))
        status, errors = live.end()
    return Storm([b"".join(lines) for lines in parts], status, b"".join(map(b"".join, printed)), errors, samples, max(samples),
                 rounds[:-1])


def rounds_of(scripts: list[list[bytes]]) -> list[list[int]]:
    """How many lines of each script come before the end of each round."""
    counts = [[part.count(b"\n") for part in parts] for parts in scripts]
    return [[sum(lines[:number]) for lines in counts] for number in range(1, max(map(len, counts)))]


def feed(files: list[Path], scripts: list[list[bytes]], seconds: float) -> None:
    """Writes the parts of scripts to pipes, in so many seconds."""
    pipes, begin, rounds = [file.open("wb", 0) for file in files], time.monotonic(), max(map(len, scripts))
    for number in range(rounds):
        for pipe, parts in zip(pipes, scripts):
            pipe.write(b"".join(parts[number:number + 1]))
        time.sleep(max(0, begin + seconds * number / rounds - time.monotonic()))
    for pipe in pipes:
        pipe.close()
