"""The machine code of the built program: the inner loop makes its turns itself.

A loop that calls a function for a turn keeps its data in memory, and takes twice as long. No proof sees that. The compiler
leaves a function out of the loop, with no message, if too many calls would be inlined into it."""
from __future__ import annotations

import os
import signal
import subprocess
import sys
from pathlib import Path

from suite.places import TOP, built, need

# The files of what is to be a part of the loop.
INNER = ("step_machine::actions::", "step_machine::parts::", "step_machine::superinstructions::", "step_machine::turn::")

# In the place of objdump: a loop whose arms all begin where it jumps through its table.
OBJDUMP = r"""#!/bin/sh
case $1 in
    -h) echo "  0 .rodata  00001000  00000010  00000010  00000000  2**4" ;;
    -d) echo "0000000000000010 <step_machine::run_loop::run_loop::<#0>>:"
        printf '  10:\tlea    0x0(%%rip),%%rcx   # 10 <table>\n  17:\tjmp    *%%rax\n' ;;
esac
"""


def functions_of_turns(names: str) -> list[str]:
    """Of the names that `nm` writes, those of functions that make turns."""
    return [line for line in names.splitlines() if any(f" {file}" in line for file in INNER)]


def test_a_function_of_a_turn_is_found() -> None:
    """Also where the name is that of a method of a type with a parameter."""
    loop, part = "07d060 t step_machine::run_loop::run_loop::<#bd26>", "029670 t step_machine::parts::TurnParts::make::<#04a7>"
    assert functions_of_turns(f"{loop}\n{part}\n") == [part]


def test_the_loop_calls_no_function_for_a_turn() -> None:
    need({"nm": "binutils"})
    names = subprocess.run(["nm", "--demangle", built()], check=True, capture_output=True, text=True).stdout
    assert " step_machine::run_loop::run_loop" in names
    assert functions_of_turns(names) == []


def test_the_table_of_turns_ends_with_its_reader(tmp_path: Path) -> None:
    """And says nothing, as any filter."""
    (tmp_path / "program").write_bytes(bytes(4096))
    (tmp_path / "objdump").write_text(OBJDUMP)
    (tmp_path / "objdump").chmod(0o755)
    words = [sys.executable, str(TOP / "bench/turn_table.py"), str(tmp_path / "program")]
    path = {**os.environ, "PATH": f"{tmp_path}:{os.environ['PATH']}"}
    assert "of 64 bytes" in subprocess.run(words, env=path, capture_output=True, text=True, check=True).stdout
    read, write = os.pipe()
    os.close(read)
    with open(write, "wb") as output:
        done = subprocess.run(words, env=path, stdout=output, stderr=subprocess.PIPE, check=False)
    assert (done.returncode, done.stderr) == (-signal.SIGPIPE, b"")
