#!/usr/bin/env python3
"""The programs of bench/corpus, for the benches: how each is compiled, what it has to give, and in which half it is.

    bench/corpus/corpus.py

halves.txt has a line for each program: its half, its language, its name, its options, and what it is. The half `choosing` is
for choosing what to make faster, and `showing` for showing what that gave. Prints these lines with the halves drawn by SEED:
of each language as many for either half.

C is compiled by the clang and the level of the line, C++ by the clang++, and Rust by Debian's rustc with the standard library,
for a module of the profile. The checksum is that of a native program of the same source, by the least of these compilers.
"""
from __future__ import annotations

import os
import random
import re
import subprocess
import sys
from dataclasses import dataclass

FOLDER = os.path.dirname(os.path.abspath(__file__))
sys.path.insert(0, os.path.dirname(FOLDER))
from programs import SOURCES, WASM  # noqa: E402

SEED = 20
HALVES = ("choosing", "showing")
SUFFIXES = {"C": ".c", "C++": ".cc", "Rust": ".rs"}
C_PLUS_PLUS = ["-std=c++17", "-fno-exceptions", "-fno-rtti"]
RUSTC = ["/usr/bin/rustc", "--edition", "2021"]
RUST_MODULE = ["--target", "wasm32-unknown-unknown", "--crate-type", "cdylib", "-C", "panic=abort", "-C", "lto=fat",
               "-C", "target-cpu=mvp", "-C", "link-arg=-zstack-size=65536", "-C", "strip=symbols"]


@dataclass(frozen=True)
class Program:
    """A line of halves.txt."""
    half: str
    language: str
    name: str
    options: str
    phrase: str

    @property
    def source(self) -> str:
        """The file of its text."""
        return os.path.join(FOLDER, self.name + SUFFIXES[self.language])

    def line(self, half: str) -> str:
        """Its line, with this half."""
        return f"{half:<9}  {self.language:<4}  {self.name:<14}  {self.options:<19}  {self.phrase}"


def programs(half: str | None = None) -> list[Program]:
    """The programs of a half, or of both."""
    with open(os.path.join(FOLDER, "halves.txt"), encoding="utf-8") as file:
        found = [Program(*re.split(" {2,}", line.strip(), maxsplit=4)) for line in file]
    return [program for program in found if half in (None, program.half)]


def commands(program: Program, module: str, native: str) -> list[list[str]]:
    """The commands that make a program's module, and its native program."""
    compiler, level = program.options.split()
    if program.language == "Rust":
        return [[*RUSTC, *RUST_MODULE, level, "-o", module, program.source], [*RUSTC, "-O", "-o", native, program.source]]
    flags = ["-I", SOURCES, *(C_PLUS_PLUS if program.language == "C++" else [])]
    usual, *rest = [flag for flag in WASM if flag != "-O2"]
    usual = usual.replace("clang", "clang++") if program.language == "C++" else usual
    return [[compiler, *rest, level, *flags, "-o", module, program.source],
            [usual, "-O2", "-w", *flags, "-o", native, program.source]]


def compiled(program: Program, folder: str) -> tuple[str, int]:
    """The file of a program's module, made in a folder, and the checksum that it has to give."""
    module, native = os.path.join(folder, program.name + ".wasm"), os.path.join(folder, program.name)
    for command in commands(program, module, native):
        subprocess.run(command, check=True)
    return module, int(subprocess.check_output([native]))


def drawn(given: list[Program]) -> list[str]:
    """The lines of halves.txt with the halves drawn, and the programs of a half together."""
    order = random.Random(SEED)
    halves: dict[str, str] = {}
    for language in SUFFIXES:
        names = sorted(program.name for program in given if program.language == language)
        order.shuffle(names)
        halves.update((name, HALVES[place % 2]) for place, name in enumerate(names))
    found = sorted(given, key=lambda program: (halves[program.name], program.language, program.name))
    return [program.line(halves[program.name]) for program in found]


if __name__ == "__main__":
    print("\n".join(drawn(programs())))
