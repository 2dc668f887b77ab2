"""Asserts that `--explain` changes nothing but for a line, over random files that are mostly broken.

    tests/run compare-reasons [SEED [COUNT]]

Each file is given to `asm`, `check`, `check --task` or `run` (only if a second reading of the standards has it refused), the
last two also with `--memory` and `--env`, with and without the option, by the program `test_inputs`, which ends with an
error where standard output, status or what is first on standard error differ. Each refusal is to have a reason of one
line, and nothing else has one. Of a task the second reading says which refusals there may be. For a 7 it
also says how far it came: no reason names an offset after that, and one that speaks of one byte names the last one that
was read; and for an 8 which operands the instruction at fault finds, and which it takes if these are always the same.
The files are bent modules of tests/suite/reference and bent texts of examples/ and of the stored rows. Configs and
lines of requests and replays, which are bent too, have a reason exactly if the second reading refuses them. Prints how
often each refusal came, and ends with 1 at the first that is answered otherwise. Without words the seed is 1, and there
are 10,000 in all. Build the program first (rt run </dev/null in crates/test_inputs); TEST_INPUTS in the environment names
another one.
"""
from __future__ import annotations

import argparse
import collections
import contextlib
import random
import re
import subprocess
from collections.abc import Sequence
from unittest import mock

from suite.places import EXAMPLES, TOP, built
from suite.reference import board, generate, programs, wasm
from suite.summary import Summary

ROWS = TOP / "crates/test_inputs/stdin"
# The head of the part of `test_inputs` that tells reasons.
HEAD = "[reasons]"
# The digest of b"abc".
DIGEST = "sha256:ba7816bf8f01cfea414140de5dae2223b00361a396177a9cb410ff61f20015ad"
# What a text is bent with, besides what lines are bent with.
PIECES = ["(", ")", "(; ", ";; ", '"', "$x", "f32.const 1", "(i32.const 0)", "(param i32)", "0x", "end", "else", "é", "\\",
          "-1"]


# What is said of one byte that is wrong, and of what follows the last byte that could be read.
OF_THE_LAST = re.compile(r": (?!no section)(.*outside the profile|no instruction of|a value type is to be|to be here: 00"
                         r"|to be here: 70)")
OF_THE_REST = "longer than what is in it"
OF_ALL = "of functions"


class Tracked(wasm.Reader):
    """The bytes of a part that begins at an offset of the file."""

    furthest = 0

    def __init__(self, data: bytes, base: int = 0) -> None:
        super().__init__(data)
        self.base = base

    def take(self, count: int) -> bytes:
        taken = super().take(count)
        Tracked.furthest = max(Tracked.furthest, self.base + self.at)
        return taken

    def part(self) -> tuple[Tracked, bool]:
        found, is_whole = super().part()
        return Tracked(found.data, self.base + self.at - len(found.data)), is_whole


def read_bytes(data: bytes) -> int:
    """How many bytes the second reading has read before it found that they encode no module."""
    Tracked.furthest = 0
    with mock.patch.object(wasm, "Reader", Tracked), contextlib.suppress(wasm.NotSpelled):
        wasm.Decoder(data).module()
    return Tracked.furthest


def is_placed(data: bytes, reason: str) -> bool:
    """Whether the offset of a reason for a 7 agrees with the second reading."""
    offset = re.search(r"offset (\d+)", reason)
    if offset is None or not data.startswith(b"\0asm\1\0\0\0"):
        return True
    read = read_bytes(data)
    if reason.startswith("byte") and OF_THE_LAST.search(reason):
        return int(offset[1]) == read - 1
    if OF_THE_REST in reason:
        return int(offset[1]) == read
    # What is counted at the end may follow a custom section, whose bytes are skipped.
    return int(offset[1]) <= (len(data) if OF_ALL in reason else read)


NAMES = {wasm.I32: "i32", wasm.I64: "i64", None: "any"}
# What a reason for an 8 says of the operands before an instruction.
OF_OPERANDS = re.compile(r", and (the operands|there are no operands)")
OF_AN_END = re.compile(r": at the end of |, after its last instruction: ")
BELOW = ", with any others below, as the point cannot be reached"


def listed(types: Sequence[int | None]) -> str:
    more = f" ({len(types) - 16} more below)" if len(types) > 16 else ""
    return " ".join(NAMES[kind] for kind in types[-16:]) + more


class Stopped(wasm.Body):
    """A body that is checked up to its fault. `told`: what is to be said of the operands of the last instruction."""

    told = ""

    def instruction(self, block: wasm.Block, opcode: int, *rest: object) -> None:
        place = " in its block" if len(self.blocks) > 1 else ""
        found = f"there are no operands{place}"
        if block.stack:
            found = f"the operands{place} are {listed(block.stack)}{BELOW if block.is_unreachable else ''}"
        takes = f": it takes {listed(wasm.FIXED[opcode][0])}" if opcode in wasm.FIXED else ""
        self.told = f"{takes}, and {found}"
        super().instruction(block, opcode, *rest)


def is_typed(data: bytes, reason: str) -> bool:
    """Whether the operands of a reason for an 8 agree with the second reading."""
    if not data.startswith(b"\0asm") or OF_AN_END.search(reason) or not OF_OPERANDS.search(reason):
        return True
    module = wasm.Decoder(data).module()
    fault = wasm.fault_of(module)
    assert fault is not None and fault.place is not None
    func, _ = fault.place
    body = Stopped(module, module.funcs[func - len(module.imports)])
    try:
        body.check()
    except wasm.NotValid:
        pass
    return reason.endswith(body.told)


def texts() -> list[str]:
    """Texts of modules: those of examples/ and of the stored rows."""
    found = [path.read_text() for path in sorted(EXAMPLES.glob("*.wat"))]
    rows = [row.split(" => ")[1] for row in ROWS.read_text().splitlines() if " => text " in row]
    return found + [row.removeprefix("text ").replace("\\n", "\n") for row in rows]


def some_text(sources: list[str]) -> bytes:
    text = random.choice(sources)
    for _ in range(random.choice([0, 1, 1, 2])):
        at = random.randrange(len(text) + 1)
        text = text[:at] + random.choice(PIECES) + text[at + random.choice([0, 0, 1, 5]):]
    return (generate.bent_text(text) if random.random() < 0.3 else text).encode("utf-8", "surrogatepass")


def some_module() -> bytes:
    data = generate.module() if random.random() < 0.6 else programs.program()
    return generate.bent(data) if random.random() < 0.7 else data


def is_spelled(data: bytes) -> bool:
    """Whether these bytes encode a module within the limits."""
    try:
        decoder = wasm.Decoder(data)
        decoder.module()
    except wasm.NotSpelled:
        return False
    return not decoder.over


# Values of --memory and of --env, the last two of which no config may have.
MEMORIES = [0, 65_535, 65_536, 131_072, 1_048_576, 2**64 - 1]
ENTRIES = ["A=1", "B=", "==x", "A", "=x"]

# The numbers of the refusals that a row may have, where the second reading says so; none if it is accepted.
Wanted = set[int] | None


def task_row(data: bytes) -> tuple[str, Wanted]:
    """A module of which a task is made, and what may come of that. None is run: what it does may take weeks."""
    words, cap, is_taken = [], wasm.PAGE_CAP, True
    if random.random() < 0.6:
        limit = random.choice(MEMORIES)
        words, cap = ["--memory", str(limit)], min(limit // wasm.PAGE, wasm.MOST_PAGES)
    # A file that does not begin with 00 is a text.
    found = {number for number, _ in wasm.refusals_of(data, cap)} if data.startswith(b"\0") else {18}
    if random.random() < 0.4:
        return " ".join(["check", "--task", *words]), found
    for entry in random.choices(ENTRIES, k=random.choice([0, 0, 1, 2])):
        words += ["--env", entry]
        is_taken = is_taken and entry in ENTRIES[:3]
    if not is_taken and found != {18} and is_spelled(data):
        found = {10}
    return (" ".join(["run", *words]), found) if found else ("check --task", {n for n, _ in wasm.refusals_of(data)})


def file_row(sources: list[str]) -> tuple[str, Wanted]:
    if random.random() < 0.35:
        return f"{random.choice(('asm', 'check'))} => {some_text(sources).hex()}", None
    data = some_module()
    if random.random() < 0.4:
        return f"{random.choice(('asm', 'check'))} => {data.hex()}", None
    command, found = task_row(data)
    return f"{command} => {data.hex()}", found


def line_row() -> tuple[str, Wanted]:
    """A config or a line."""
    if random.random() < 0.5:
        text = generate.config(DIGEST)
        return f"config => {text.encode().hex()}", set() if board.process_of(text) else {10}
    line, kind = generate.line(b"abc", DIGEST), random.choice(("request", "event"))
    return f"{kind} => {line.hex()}", set() if board.request_of(line, kind == "event") else {1}


def row(sources: list[str]) -> tuple[str, Wanted]:
    """A command and what it is given, and the refusals that it may have."""
    return file_row(sources) if random.random() < 0.7 else line_row()


def rows(count: int) -> list[tuple[str, Wanted]]:
    sources = texts()
    return [row(sources) for _ in range(count)]


class Differs(Exception):
    """A row that is answered otherwise than it has to be."""


def answers(asked: list[str]) -> list[str]:
    script = "".join(f"{row}\n" for row in [HEAD, *asked]).encode()
    run = subprocess.run([built("test_inputs")], input=script, stdout=subprocess.PIPE, check=False)
    found = run.stdout.decode("utf-8", "replace").removeprefix(f"{HEAD}\n").splitlines()
    if run.returncode != 0:
        raise Differs(f"ended with {run.returncode} at: {asked[len(found)] if len(found) < len(asked) else 'the end'}")
    if len(found) - 1 != len(asked):
        raise Differs(f"{len(found) - 1} answers to {len(asked)} rows")
    return found[:-1]


def refusal_of(told: str) -> str:
    """The number and the name of a refusal."""
    return " ".join(told.split()[:3])


def is_one_of(refusal: str, wanted: set[int]) -> bool:
    return refusal == "accepted" if not wanted else any(refusal.startswith(f"refused {n} ") for n in wanted)


def refusal_told(line: str, wanted: Wanted, answer: str) -> str:
    """The refusal of a row that is answered as it has to be."""
    told, _, reason = answer.rpartition("\t")
    refusal = refusal_of(told)
    if (reason == "none") != (refusal == "accepted"):
        raise Differs(f"{line}\n{told}\n{reason}")
    if wanted is not None and not is_one_of(refusal, wanted):
        raise Differs(f"{line}\n{told}\nin place of one of {sorted(wanted)}")
    if refusal.startswith("refused 7") and not is_placed(bytes.fromhex(line.split(" => ")[1]), reason):
        raise Differs(f"{line}\n{told}\n{reason}\nanother offset")
    if refusal.startswith("refused 8") and not is_typed(bytes.fromhex(line.split(" => ")[1]), reason):
        raise Differs(f"{line}\n{told}\n{reason}\nother operands")
    return refusal


def main(words: list[str]) -> int:
    parser = argparse.ArgumentParser(prog="tests/run compare-reasons", description=__doc__,
                                     formatter_class=argparse.RawDescriptionHelpFormatter)
    parser.add_argument("seed", nargs="?", type=int, default=1, metavar="SEED")
    parser.add_argument("count", nargs="?", type=int, default=10_000, metavar="COUNT")
    given = parser.parse_args(words)
    built("test_inputs")
    random.seed(given.seed)
    asked = rows(given.count)
    counts: collections.Counter[str] = collections.Counter()
    try:
        for (line, wanted), answer in zip(asked, answers([line for line, _ in asked])):
            counts[refusal_told(line, wanted, answer)] += 1
    except Differs as difference:
        print(difference)
        return Summary("compare-reasons", counts.total(), 1).end()
    for refusal, count in sorted(counts.items()):
        print(f"{count:6} {refusal}")
    return Summary("compare-reasons", counts.total()).end()
