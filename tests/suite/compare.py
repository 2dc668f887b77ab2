"""Compares the built program with a second reading of the standards, over random modules and lines.

    tests/run compare [--dry | --both] [--rows] [SEED [ROUNDS]]

The second reading is tests/suite/reference/: a decoder, a validator, a reader of lines and configs, a board and a debugger,
written in Python from the standards and docs/PROTOCOL.md. A proof shows that the program does what the definitions say;
this shows, as far as trials can, that the definitions say what was meant. A round is 60 modules, each put, created,
started, run in random slices, asked for its state after each, stepped and inspected, and 120 lines,
many of them bent, in replay and in serve. Most modules are valid programs that branch, call, trap and reach the
memory's end; some are made of superinstructions that begin and end everywhere, and the rest are bent ones. With --rows all
are made of superinstructions, and slices of one length, from 1 to 50 turns, go over a part of each. After ten modules
with a difference, or all rounds, those are printed, the smallest module first, and the status is 1; so it is at the first
difference of other lines. Without words the seed is 1, and there are 100 rounds. Cases are modules, and scripts of other
lines. Build the program first (make build); PROGRAM in the environment names another one. With --dry there is no program:
the second reading alone answers, and what it answered is counted.

With --both it is another program that is compared, `test_inputs`, over the modules alone: it runs each on the machine
that programs use and on the one that keeps labels, and prints what the second shows at random turns, and whether the
first shows the same there. Both are to show the end, the output and the frames that the second reading has. Build it
first (rt run </dev/null in crates/test_inputs); TEST_INPUTS in the environment names another one.
"""
import collections
import hashlib
import itertools
import json
import os
import random
import subprocess
import sys
import tempfile
from collections.abc import Callable
from typing import Any

from suite.places import EXAMPLES, built
from suite.reference import callers, frames, generate, programs, superinstructions, wasm
from suite.reference.board import Board, Refused, line_of
from suite.reference.execute import Machine
from suite.summary import COULD_NOT, Summary

FIRST_RUN = EXAMPLES / "first_run.jsonl"
# The head of the part of `test_inputs` that runs modules on both machines.
BOTH = b"[machines]"
# How many turns of a module of superinstructions are looked at, at most.
MOST_TURNS = 25_000
# A module, and budgets of the slices that run it.
Chosen = tuple[bytes, list[int]]
# A line, the reply or its number, and what differs from it.
Difference = tuple[Any, bytes, bytes]
# Modules with a difference: the size of each, its script, and the first difference.
Differing = list[tuple[int, list[bytes], Difference]]


def replies(lines: list[bytes], in_replay: bool) -> list[bytes]:
    script = b"\n".join([*lines, b""])
    if not in_replay:
        run = subprocess.run([built(), "serve"], input=script, stdout=subprocess.PIPE, check=True)
    else:
        with tempfile.NamedTemporaryFile() as file:
            file.write(script)
            file.flush()
            run = subprocess.run([built(), "replay", file.name], stdout=subprocess.PIPE, check=True)
    return run.stdout.split(b"\n")[:-1]


def of_rows() -> Chosen:
    """A module of superinstructions, with slices of one length over its begin, its end or a part between."""
    data = superinstructions.program()
    machine = Machine(wasm.Decoder(data).module())
    machine.run(MOST_TURNS)
    length, count = random.randint(1, 50), random.randint(1, 12)
    begin = random.choice([0, random.randrange(machine.turns + 1), machine.turns - random.randint(0, length * count)])
    return data, [*([begin] if begin > 0 else []), *[length] * count, MOST_TURNS]


def some_module() -> Chosen:
    chance = random.random()
    if chance < 0.02:
        return programs.deep(), [random.randint(1, 3000), random.randint(1, 3000), 15_000]
    slices = [random.randint(1, most) for most in (4, 50, 400, 1500)]
    if chance < 0.2:
        return generate.module(), slices
    if chance < 0.25:
        return of_rows()
    data = callers.program() if chance < 0.35 else frames.program() if chance < 0.65 else programs.program()
    slices = stops(data) if random.random() < 0.8 and not wasm.refusals_of(data) else [*slices, 10_000]
    return generate.bent(data) if random.random() < 0.06 else data, slices


def stops(data: bytes) -> list[int]:
    """Budgets of slices that end at random turns of a module, and of one that goes on from there."""
    machine = Machine(wasm.Decoder(data).module())
    machine.run(3000)
    ends = sorted(random.randrange(machine.turns + 1) for _ in range(4))
    return [max(1, end - before) for before, end in zip([0, *ends], ends)] + [10_000]


def some_place() -> dict[str, int]:
    return {"func": random.randint(0, 5), "place": random.choice([random.randint(0, 9), random.randint(0, 120)])}


def looks() -> list[dict[str, Any]]:
    """Looks at a task, some while its slice is out."""
    peek: dict[str, Any] = {"op": "peek", "address": random.choice([0, 65_530, 65_536, random.randrange(70_000)]),
                            "length": random.choice([0, 1, 6, 256, 257])}
    return random.sample([{"op": "inspect"}, {"op": "inspect"}, peek], random.randint(1, 3))


def debugging() -> list[dict[str, Any]]:
    """Pauses a task, looks at it, makes some steps and lets it run on; at times with a breakpoint more or fewer."""
    counts = random.choices([1, 1, 1, 2, 2, 7, 30, 1000, 0, 1001], k=random.randint(0, 3))
    steps = [line for count in counts for line in [dict[str, Any](op="step", count=count), *looks()]]
    breaks = [dict[str, Any](op=random.choice(["break", "unbreak"]), **some_place()) for _ in range(random.choice([0, 0, 1]))]
    return [{"op": "pause"}, *looks(), *breaks, *steps, {"op": "resume"}]


def lines_of(name: str, data: bytes, slices: list[int]) -> list[bytes]:
    """Lines that put, create and run a module, at times with a pause or a signal while a slice is out, and with
    breakpoints, steps and looks at its frames and its memory."""
    config = json.dumps({
        "ociVersion": "1.0.2",
        "process": {
            "args": random.choice([["a"], ["a", "", "ä b"], ["x" * 300] * 64]),
            "env": random.choice([[], ["A=1"], ["A=1", "LONG=" + "y" * 2000]]),
            "cwd": "/",
        },
        "annotations": {"dev.shim.module": "sha256:" + hashlib.sha256(data).hexdigest()},
    })
    lines: list[dict[str, Any]] = [
        {"op": "put", "hex": data.hex()},
        {"op": "create", "id": name, "config": config},
    ]
    lines += [{"op": "break", "id": name, **some_place()} for _ in range(random.choice([0, 0, 1, 4]))]
    lines += [{"id": name, **look} for look in looks() if random.random() < 0.1]
    lines.append({"op": "start", "id": name})
    states: list[dict[str, Any]] = [{"op": "state"}] * 37
    others: list[dict[str, Any]] = [{"op": "pause"}, {"op": "kill", "signal": 9}]
    for number, budget in enumerate(slices, 1):
        between = random.choice([*states, *others, *looks()[:1] * 4])
        slice_: list[dict[str, Any]] = [{"op": "take", "budget": budget}, between, {"op": "return"}, {"op": "state"}]
        slice_ += debugging() if random.random() < (0.1 if number == len(slices) else 0.5) else [{"op": "resume"}]
        lines += [{"id": name, **line} for line in slice_]
    lines += [{"op": "output", "id": name, "stream": stream} for stream in (1, 2)] + [{"op": "state", "id": name}]
    return [json.dumps(line).encode() for line in lines]


def compare_modules(choose: Callable[[], Chosen], tally: "Tally", differing: Differing, is_dry: bool) -> None:
    """Runs 60 modules; adds those with another reply than the second reading's to the differing ones."""
    scripts, board = [lines_of(f"t{number}", *choose()) for number in range(60)], Board(True)
    wanted = [[board.answer(line) for line in script] for script in scripts]
    found = iter(sum(wanted, list[bytes]()) if is_dry else replies(sum(scripts, list[bytes]()), True))
    for script, replies_ in zip(scripts, wanted):
        told = [(line, reply, next(found, b"")) for line, reply in zip(script, replies_)]
        first = next((reply for reply in told if reply[1] != reply[2]), None)
        if first is not None:
            differing.append((len(script[0]), script, first))
        for line, reply, _ in told:
            tally.add(line, reply)
        tally.ends[end_of(told[-1][1])] += 1


def compare_machines(choose: Callable[[], Chosen], tally: "Tally", differing: Differing) -> None:
    """Runs 60 modules on both machines; adds those that either shows in another way than the second reading."""
    modules = [(data, [*itertools.accumulate(slices)]) for data, slices in (choose() for _ in range(60))]
    lines = [" ".join([data.hex(), *map(str, counts)]).encode() for data, counts in modules]
    script = b"\n".join([BOTH, *lines, b""])
    run = subprocess.run([built("test_inputs")], input=script, stdout=subprocess.PIPE, check=True)
    shown = run.stdout.removeprefix(BOTH + b"\n")
    answers = [answer.split(b"\n") for answer in shown.split(b"\n\n")] + [[]] * len(modules)
    for line, (data, counts), found in zip(lines, modules, answers):
        wanted = shown_at(data, counts)
        pairs = enumerate(itertools.zip_longest(wanted, found, fillvalue=b""), 1)
        first = next(((number, want, has) for number, (want, has) in pairs if want != has), None)
        if first is not None:
            differing.append((len(line), [line], first))
        for told in wanted:
            tally.add(line, told.split(b"\t")[-1])
        tally.ends[ending(wanted[-1])] += 1


def shown_at(data: bytes, counts: list[int]) -> list[bytes]:
    """What the program of both machines is to print of a module: a line after each of these counts of turns, or one for
    its refusal."""
    for number, place in wasm.refusals_of(data):
        return [line_of(Refused(number, place).reply())]
    machine, lines = Machine(wasm.Decoder(data).module(), args=["a"]), []
    for count in counts:
        machine.run(count - machine.turns)
        outputs = [bytes(machine.streams[stream]).hex() for stream in (1, 2)]
        frames_ = line_of({"frames": machine.shown(), "id": "a", "n": machine.turns, "ok": True})
        lines.append(b"\t".join([*map(str.encode, ["same", told_end(machine.end), *outputs]), frames_]))
    return lines


def told_end(end: dict[str, Any] | None) -> str:
    """How a task has ended, in words."""
    if end is None:
        return "none"
    cause: str = end["cause"]
    return {"exit": f"exit {end['exit']}", "trap": f"trap {end.get('trap')}"}.get(cause, cause)


def ending(told: bytes) -> str:
    """How a module ended, by the last line of what is printed of it."""
    parts = told.decode().split("\t")
    return "refused" if len(parts) == 1 else "exit" if parts[1].startswith("exit") else parts[1]


def end_of(state: bytes) -> str:
    """How a task ended, by the reply to its last state."""
    members = json.loads(state)
    return str(members.get("trap") or members.get("cause") or members.get("status") or "no task")


def show(line: Any, wanted: bytes, found: bytes) -> None:
    """Prints a line and what it is answered, of long replies the part where they differ."""
    same = len(os.path.commonprefix([wanted, found]))
    part = slice(max(0, same - 400), same + 400)
    print(f"line    {line!r}\nwanted  {wanted[part]!r}\nanswer  {found[part]!r}")


def of_requests() -> list[bytes]:
    """A content, and 120 lines that are mostly requests over it."""
    put = FIRST_RUN.read_bytes().splitlines()[0]
    data = bytes.fromhex(json.loads(put)["hex"])
    digest = "sha256:" + hashlib.sha256(data).hexdigest()
    return [put, *(generate.line(data, digest) for _ in range(120))]


def waited_for(lines: list[bytes]) -> list[bytes]:
    """The lines for `serve`: after each by which a task runs comes a wait for it, so that no reply hangs on how far
    the workers have come."""
    board, found = Board(False), list[bytes]()
    for line in lines:
        found.append(line)
        reply = json.loads(board.answer(line))
        if reply.get("status") == "running":
            found.append(json.dumps({"op": "wait", "id": reply["id"]}).encode())
            board.answer(found[-1])
    return found


def compare(lines: list[bytes], in_replay: bool, tally: "Tally", is_dry: bool) -> bool:
    """Whether all replies are as the second reading has them; says where the first one is not."""
    lines = lines if in_replay else waited_for(lines)
    board = Board(in_replay)
    wanted = [board.answer(line) for line in lines]
    given = wanted if is_dry else replies(lines, in_replay)
    for line, want, found in zip(lines, wanted, given):
        if want != found:
            show(line, want, found)
            return False
        tally.add(line, want)
    return len(given) == len(lines)


class Tally:
    """How many replies there were, by the refusal, and of inspects by what they show; and how modules ended."""

    def __init__(self) -> None:
        self.numbers, self.frames, self.blocks = (collections.Counter[int]() for _ in range(3))
        self.ends = collections.Counter[str]()

    def add(self, line: Any, reply: bytes) -> None:
        members = json.loads(reply)
        self.numbers[members.get("number", 0)] += 1
        if "frames" in members:
            frames_ = members["frames"]
            self.frames[min(len(frames_), 3)] += 1
            self.blocks[min(max((len(frame["labels"]) for frame in frames_), default=0), 3)] += 1

    def __str__(self) -> str:
        numbers = [f"{count} of {key}" if key else f"{count} accepted" for key, count in sorted(self.numbers.items())]
        ends = [f"{count} {key}" for key, count in sorted(self.ends.items())]
        return (f"{self.numbers.total()} replies: {', '.join(numbers)}\n"
                f"{self.frames.total()} inspects by frames: {shares(self.frames)}; "
                f"by the open blocks of a frame: {shares(self.blocks)}\n"
                f"{self.ends.total()} modules: {', '.join(ends)}")


def shares(counts: collections.Counter[int]) -> str:
    """How often there is each number, and its share; 3 stands for more too."""
    total = counts.total()
    told = [f"{count} of {key}{'+' * (key == 3)} ({100 * count / total:.0f}%)" for key, count in sorted(counts.items())]
    return ", ".join(told)


def compare_round(options: set[str], tally: Tally, differing: Differing) -> bool:
    """Makes a round. Whether it can go on: a line that is no part of a module's script differs nowhere."""
    choose = of_rows if "--rows" in options else some_module
    if "--both" in options:
        compare_machines(choose, tally, differing)
        return True
    is_dry = "--dry" in options
    compare_modules(choose, tally, differing, is_dry)
    return all(compare(of_requests(), in_replay, tally, is_dry) for in_replay in (True, False))


def main(words: list[str]) -> int:
    options = {word for word in words if word in ("--dry", "--both", "--rows")}
    numbers = [word for word in words if word not in options]
    if len(numbers) > 2 or not all(word.isdigit() for word in numbers) or {"--dry", "--both"} <= options:
        is_asked = numbers in (["-h"], ["--help"])
        print((__doc__ or "").strip(), file=sys.stdout if is_asked else sys.stderr)
        return 0 if is_asked else COULD_NOT
    seed, rounds = ([int(word) for word in numbers] + [1, 100][len(numbers):])
    random.seed(seed)
    tally, differing, scripts, failed = Tally(), list[Any](), 0, 0
    for _ in range(rounds):
        if not compare_round(options, tally, differing):
            failed = 1
            break
        scripts += 0 if options & {"--dry", "--both"} else 2
        if len(differing) >= 10:
            break
    for _, script, first in sorted(differing):
        print(b"\n".join(script).decode())
        show(*first)
    told = f"{len(differing)} modules differ" if differing else "no difference"
    print(tally, "nothing was compared" if "--dry" in options else told, sep="\n")
    modules = 0 if "--dry" in options else tally.ends.total()
    name = f"compare{'-both' if '--both' in options else '-dry' if '--dry' in options else ''}"
    return Summary(name, modules - len(differing) + scripts, len(differing) + failed).end()
