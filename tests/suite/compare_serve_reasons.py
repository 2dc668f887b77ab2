"""Asserts that `serve --explain --log` answers as `serve` does, over random lines, and says why each is refused.

    tests/run compare-serve-reasons [SEED [COUNT]]

The lines are bent requests, puts of bent modules and of texts, and creates from them; no task is started, so replies do not
depend on when a worker runs. Standard output and status are to be the same with the options as without, and standard error is
to have one line `why: line N, NUMBER NAME: ..` for each refused reply, one of the log for each of them, and one for each
create. Prints how often each refusal came. Without words the seed is 1, and there are 10,000 lines. Build the program
first (make build); PROGRAM in the environment names another one.
"""
from __future__ import annotations

import argparse
import collections
import hashlib
import json
import random
import re
import subprocess
from collections.abc import Iterator
from typing import Any

from suite.places import EXAMPLES, built
from suite.reference import board, generate, programs
from suite.summary import Summary

DIGEST = "sha256:ba7816bf8f01cfea414140de5dae2223b00361a396177a9cb410ff61f20015ad"
WHY = re.compile(r"why: line (\d+), (\d+) (\w+): ..")
TEXTS = [path.read_text() for path in sorted(EXAMPLES.glob("*.wat"))]


def is_of_a_run(line: bytes) -> bool:
    """Whether a line lets a task run."""
    request = board.request_of(line, False)
    return b"start" in line or b"resume" in line or (request is not None and "start" in str(request))


def bent_line() -> bytes:
    while is_of_a_run(line := generate.line(b"abc", DIGEST)):
        pass
    return line


def line_of(**members: object) -> bytes:
    return json.dumps(members, separators=(",", ":")).encode()


def made_lines() -> list[bytes]:
    """A content, a create from it, and that task's end."""
    data = generate.module() if random.random() < 0.5 else programs.program()
    data = generate.bent(data) if random.random() < 0.5 else data
    digest = "sha256:" + hashlib.sha256(data).hexdigest()
    config: dict[str, Any] = {"ociVersion": "1.0.2", "process": {"args": ["a"], "cwd": "/"},
                              "annotations": {"dev.shim.module": digest}}
    if random.random() < 0.3:
        config["linux"] = {"resources": {"memory": {"limit": random.choice([0, 65_536, 16_777_216])}}}
    return [
        line_of(op="put", hex=data.hex()),
        line_of(op="create", id="t", config=json.dumps(config)),
        line_of(op="kill", id="t", signal=9),
        line_of(op="delete", id="t"),
        line_of(op="remove", digest=digest),
    ]


def text_line() -> list[bytes]:
    text = random.choice(TEXTS)
    return [line_of(op="put_text", text=generate.bent_text(text) if random.random() < 0.7 else text)]


def script(count: int) -> list[bytes]:
    lines: list[bytes] = []
    while len(lines) < count:
        kind = random.random()
        lines += [bent_line()] if kind < 0.6 else made_lines() if kind < 0.9 else text_line()
    return lines


def serve(lines: list[bytes], words: list[str]) -> tuple[int, list[str], list[str]]:
    text = b"".join(line.replace(b"\n", b" ") + b"\n" for line in lines)
    run = subprocess.run([built(), "serve", *words], input=text, capture_output=True, check=False)
    return run.returncode, run.stdout.decode().splitlines(), run.stderr.decode("utf-8", "replace").splitlines()


def faults_of(said: list[str], replies: list[dict[str, Any]], refused: list[tuple[int, int, str]]) -> Iterator[str]:
    """What is wrong with standard error, if anything is."""
    why = [WHY.match(line) for line in said if line.startswith("why:")]
    if [(int(m[1]), int(m[2]), m[3]) for m in why if m] != refused or None in why:
        yield "the lines `why:` are not those of the refusals"
    log = [line for line in said if line.startswith("log: ")]
    if len(log) + len(why) != len(said) or sum(" refused " in line for line in log) != len(refused):
        yield "the log has other refusals"
    created = sum(reply.get("status") == "created" and "n" not in reply for reply in replies)
    if sum(" created " in line for line in log) != created:
        yield "the log has other creates"


def main(words: list[str]) -> int:
    parser = argparse.ArgumentParser(prog="tests/run compare-serve-reasons", description=__doc__,
                                     formatter_class=argparse.RawDescriptionHelpFormatter)
    parser.add_argument("seed", nargs="?", type=int, default=1, metavar="SEED")
    parser.add_argument("count", nargs="?", type=int, default=10_000, metavar="COUNT")
    given = parser.parse_args(words)
    built()
    random.seed(given.seed)
    lines = script(given.count)
    status, plain, _ = serve(lines, [])
    told_status, told, said = serve(lines, ["--explain", "--log"])
    replies = [json.loads(reply) for reply in plain]
    refused = [(n + 1, r["number"], r["error"]) for n, r in enumerate(replies) if not r["ok"]]
    faults = list(faults_of(said, replies, refused))
    if (status, plain) != (told_status, told):
        faults = ["other replies or another status with --explain --log"]
    for name, count in sorted(collections.Counter(f"{number} {name}" for _, number, name in refused).items()):
        print(f"{count:6} {name}")
    print(*faults, sep="\n", end="\n" if faults else "")
    return Summary("compare-serve-reasons", 0 if faults else len(replies), len(faults)).end()
