"""Tries the built program with hostile modules, texts and lines, with little memory and with none.

    tests/run hostile [--program FILE] [--seed N] [--jobs N] [PART..]

Without a PART all are done, in this order:

inputs        every prefix and every single flipped bit of modules, texts, configs and lines: each is answered by one
              line, with the reply that the second reading (tests/suite/reference/) has where it reads the same thing
growth        the processor time of inputs that ask for much work, at sizes that double
runs          modules that trap at each limit, take all memory, write all output, and loop on all slots; and how long
              they hold up others
limits        serve and run with 16 to 64 MiB of address space
allocations   serve and replay with allocations refused, each alone and all from one on, and which of them end the
              program

What is wrong is printed as it is found, with the line and both answers, and the line whole in a file. Counts come at
the end; a case is a part. The status is 1 if anything was wrong, and 2 if the command line is. Build the program first
(make build); PROGRAM in the environment, or --program, names another one. The last part needs a C compiler, as `cc`,
and the program's file itself (no script that starts it), with the names of its functions and with frame pointers, if
places are to be told: an optimised build has few of them, and then the phases that it tells are rough. All of it takes
about twenty minutes. Times of `growth` are of the processor, so other work beside it makes them only a little longer.
"""
from __future__ import annotations

import argparse
import random
import sys
import time
from collections.abc import Callable
from pathlib import Path

from suite.places import built, need
from suite.summary import Summary
from suite.trials import allocations, growth, inputs, memory, runs
from suite.trials.program import Report

Part = Callable[[Path, Report, int], None]
PARTS: dict[str, Part] = {
    "inputs": inputs.try_inputs,
    "growth": lambda program, report, _jobs: growth.try_growth(program, report),
    "runs": lambda program, report, _jobs: runs.try_runs(program, report),
    "limits": lambda program, report, _jobs: memory.try_limits(program, report),
    "allocations": lambda program, report, _jobs: allocations.try_allocations(program, report),
}


def main(given: list[str]) -> int:
    parser = argparse.ArgumentParser(prog="tests/run hostile", description=__doc__,
                                     formatter_class=argparse.RawDescriptionHelpFormatter)
    parser.add_argument("--program", type=Path, help="the program (default: PROGRAM, or the one that make build builds)")
    parser.add_argument("--seed", type=int, default=1, help="of what is random (default: 1)")
    parser.add_argument("--jobs", type=int, default=2, help="processes of the second reading (default: 2)")
    parser.add_argument("part", nargs="*", metavar="PART", help=", ".join(PARTS))
    words = parser.parse_args(given)
    unknown = [part for part in words.part if part not in PARTS]
    if unknown:
        parser.error(f"no such part: {', '.join(unknown)}")
    program = words.program or built()
    if not program.is_file():
        parser.error(f"{program} is not there: build it (make build)")
    if not words.part or "allocations" in words.part:
        need({"cc": "gcc"})
    sys.setrecursionlimit(10_000)
    reports = []
    for part in words.part or PARTS:
        print(f"== {part}, seed {words.seed}")
        random.seed(words.seed)
        reports.append(Report(part))
        begun = time.monotonic()
        PARTS[part](program.resolve(), reports[-1], words.jobs)
        print(f"   {time.monotonic() - begun:.0f} s")
    for report in reports:
        print(report.told())
    failed = sum(bool(report.faults) for report in reports)
    return Summary("hostile", len(reports) - failed, failed).end()
