#!/usr/bin/env python3
"""Counts which sequences of instructions programs make how often, and chooses groups of them (superinstructions).

    bench/sequences.py [MODULE..] [--half choosing|showing|both] [--top N]
                       [--greedy K] [--branches none|last|through] [--longest N] [--rows] [--spread N] [--show]

Compiles the programs of a half of bench/corpus (`choosing`), or takes the modules that are named. Each is run by `jsc` (of
Debian's libjavascriptcoregtk-4.0-bin, with its compilers) with a counter wherever instructions begin that are made
together, so the counts are exact; cells.py has the words. A program of the corpus has to give its checksum.

Prints the N sequences (40) of two to six cells that cover most instructions in the mean over programs: that share, the
largest share in one program, and in how many programs it is above 1 %. No cell of a sequence but the first is the target of
a branch, and a branch inside it was not taken. Of occurrences that overlap only the first counts.

With --greedy, chooses K groups beside those of crates/flat_code/src/opcode.rt, and prints for each the share of today's
dispatches that is left with it and those before it, in the geometric mean over programs. For each program it prints how many
dispatches for each cell are left with no group, with today's and with K more. Where several groups fit, the longest is taken.
A group may have untaken branches inside (`through`, the default), a branch or a call at its end alone (`last`), or none, and
N cells (--longest, 6). With --rows, it is what a row of the machine's table can be: a local, a constant or a `pass`, and then
what changes the innermost frame alone. With --spread, each group has to save half a percent of the dispatches of N programs.
With --show, the programs of the other half are printed too, which had no part in the choice.
"""
from __future__ import annotations

import argparse
import math
import os
import subprocess
import tempfile
from collections import Counter

from cells import LEAVING, NO_TURN, Cell, counted
from corpus import corpus
from groups import LONGEST, Asked, Chain, Choice, Group, Groups, Run, groups_of_program

JSC = ["jsc", os.path.join(corpus.FOLDER, "counts.js"), "--"]
Shares = dict[Group, float]


def counts_of(data: bytes, folder: str) -> tuple[int, list[int]]:
    """The number with which a module exits, and its counters."""
    path = os.path.join(folder, "counted.wasm")
    with open(path, "wb") as file:
        file.write(data)
    number, counts = subprocess.check_output([*JSC, path], text=True).splitlines()
    return int(number), [int(count) for count in counts.split()]


def chains_of(cells: list[Cell], counts: list[int]) -> list[Chain]:
    """The chains that were made, equal ones as one."""
    parts: list[list[Cell]] = []
    for at, cell in enumerate(cells):
        if at == 0 or cell.is_target or cells[at - 1].word in LEAVING:
            parts.append([])
        parts[-1].append(cell)
    found: dict[Group, tuple[int, ...]] = {}
    for part in parts:
        numbers, words = tuple(counts[cell.counter] for cell in part), tuple(cell.word for cell in part)
        if numbers[0]:
            found[words] = tuple(map(sum, zip(numbers, found.get(words, (0,) * len(words)))))
    return [Chain(words, numbers) for words, numbers in found.items()]


def run_of(name: str, module: str, checksum: int | None, folder: str) -> Run:
    """What a module makes. It has to exit with the checksum, if there is one."""
    with open(module, "rb") as file:
        made = counted(file.read())
    number, counts = counts_of(made.data, folder)
    if checksum not in (None, number):
        raise ValueError(f"{name} gives {number} in place of {checksum}")
    turns = sum(counts[cell.counter] for cell in made.cells if cell.word not in NO_TURN)
    return Run(name, turns, chains_of(made.cells, counts))


def covered(run: Run) -> Shares:
    """The share of a program's instructions that each sequence covers."""
    found: Counter[Group] = Counter()
    for chain in run.chains:
        ends: dict[Group, int] = {}
        for begin in range(len(chain.words)):
            for end in range(begin + 2, min(begin + LONGEST, len(chain.words)) + 1):
                group = chain.words[begin:end]
                if ends.get(group, 0) <= begin and chain.counts[end - 1]:
                    ends[group] = end
                    found[group] += chain.counts[end - 1] * sum(word not in NO_TURN for word in group)
    return {group: count / run.turns for group, count in found.items()}


def print_table(runs: list[Run], top: int) -> None:
    """The sequences that cover most."""
    shares = [covered(run) for run in runs]
    sums: dict[Group, float] = {}
    for each in shares:
        for group, share in each.items():
            sums[group] = sums.get(group, 0) + share
    print(f"{'mean':>7} {'most':>7} {'>1 %':>5}   sequence")
    for group in sorted(sums, key=lambda one: -sums[one])[:top]:
        found = [each.get(group, 0) for each in shares]
        print(f"{sums[group] / len(runs):7.2%} {max(found):7.2%} {sum(share > 0.01 for share in found):5}   {' '.join(group)}")


def mean(ratios: list[float]) -> float:
    """The geometric mean."""
    return math.exp(sum(map(math.log, ratios)) / len(ratios))


def print_choice(choice: Choice, count: int) -> None:
    """Chooses so many groups, and prints them."""
    today = choice.dispatches
    print(f"\n{len(choice.groups.all)} groups today. {'left':>10}   group chosen")
    for number in range(1, count + 1):
        group = choice.choose()
        if group is None:
            break
        left = mean([now / before for now, before in zip(choice.dispatches, today)])
        print(f"{number:15} {left:10.4f}   {' '.join(group)}", flush=True)


def print_left(runs: list[Run], chosen: Groups) -> None:
    """For each program, the dispatches that are left."""
    today = Groups(groups_of_program())
    print(f"\n{'program':<14} {'today':>7} {'chosen':>7} {'ratio':>7}   (dispatches for each cell)")
    rows = []
    for run in runs:
        cells = sum(sum(chain.counts) for chain in run.chains)
        rows.append((run.name, today.dispatches_of(run) / cells, chosen.dispatches_of(run) / cells))
    rows.append(("geometric mean", mean([row[1] for row in rows]), mean([row[2] for row in rows])))
    for name, before, now in rows:
        print(f"{name:<14} {before:7.3f} {now:7.3f} {now / before:7.3f}")


def arguments() -> argparse.Namespace:
    """What is asked for."""
    parser = argparse.ArgumentParser(description="Counts sequences of instructions, and chooses groups of them.")
    parser.add_argument("modules", nargs="*", metavar="MODULE")
    parser.add_argument("--half", choices=[*corpus.HALVES, "both"], default=corpus.HALVES[0])
    parser.add_argument("--top", type=int, default=40, metavar="N")
    parser.add_argument("--greedy", type=int, default=0, metavar="K")
    parser.add_argument("--branches", choices=["none", "last", "through"], default="through")
    parser.add_argument("--longest", type=int, default=LONGEST, metavar="N")
    parser.add_argument("--rows", action="store_true")
    parser.add_argument("--spread", type=int, default=1, metavar="N")
    parser.add_argument("--show", action="store_true")
    return parser.parse_args()


def runs_of(half: str, folder: str) -> list[Run]:
    """What the programs of a half make."""
    found = corpus.programs(None if half == "both" else half)
    return [run_of(program.name, *corpus.compiled(program, folder), folder) for program in found]


def main() -> None:
    asked = arguments()
    with tempfile.TemporaryDirectory() as folder:
        runs = [run_of(os.path.basename(module), module, None, folder) for module in asked.modules]
        runs = runs or runs_of(asked.half, folder)
        if asked.top:
            print_table(runs, asked.top)
        if asked.greedy:
            choice = Choice(runs, Asked(asked.branches, asked.longest, asked.rows), asked.spread)
            print_choice(choice, asked.greedy)
            print_left(runs, choice.groups)
            for half in corpus.HALVES if asked.show else ():
                if half != asked.half:
                    print(f"\nthe half for {half}:", end="")
                    print_left(runs_of(half, folder), choice.groups)


if __name__ == "__main__":
    main()
