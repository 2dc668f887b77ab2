"""What the tests share: which shim they run, modules, and the second reading of the standards."""
from __future__ import annotations

import contextlib
import json
import os
import random
import resource
import sys
from collections.abc import Iterator
from pathlib import Path
from typing import Any
from unittest import mock

from tests.reference_shim import Machine, callers, frames, programs, wasm

TOP = Path(__file__).resolve().parents[3]
CLIENT = TOP / "clients/python"
EXAMPLES = TOP / "examples"
REFERENCE = CLIENT / "tests/reference_shim.py"
# The shim of the tests: the built program, if `pytest --program` or FEULGAMA_SHIM names one, else the second reading.
SHIM = os.path.abspath(os.environ.get("FEULGAMA_SHIM") or REFERENCE)
IS_REFERENCE = SHIM.endswith(".py")
# Variables of the environment with which Python takes standard output for ASCII, as if the locale were that.
ASCII = {"LC_ALL": "C", "PYTHONCOERCECLOCALE": "0", "PYTHONUTF8": "0"}

__all__ = ["callers", "wasm"]


def module_of(example: str) -> bytes:
    """The module that the first line of an example puts."""
    with (EXAMPLES / f"{example}.jsonl").open() as lines:
        return bytes.fromhex(json.loads(lines.readline())["hex"])


EXIT_7 = module_of("first_run")


# Each round of the loop is six turns, the fifth of which sets the local.
FOREVER = b"""(module (type $v (func))
  (func $main (type $v) (local $i i32)
    loop  local.get $i  i32.const 1  i32.add  local.set $i  br 0  end)
  (export "_start" (func $main)))"""


# The same module in bytes.
FOREVER_BYTES = bytes.fromhex("0061736d01000000" "010401600000" "03020100" "070a01065f73746172740000"
                              "0a12011001017f" "0340" "2000" "4101" "6a" "2100" "0c00" "0b" "0b")


# The same, with a call of function 0 each 65,536 rounds.
OFTEN = b"""(module (type $v (func))
  (func $often (type $v) nop)
  (func $main (type $v) (local $i i32)
    loop
      local.get $i  i32.const 1  i32.add  local.tee $i  i32.const 65535  i32.and  i32.eqz
      if  call $often  end
      br 0
    end)
  (export "_start" (func $main)))"""


# It drops a number, and then executes `unreachable`: its third turn is a trap.
TRAPPING_BYTES = bytes.fromhex("0061736d01000000" "010401600000" "03020100" "070a01065f73746172740000"
                               "0a0801060041011a000b")


@contextlib.contextmanager
def full_disk(most: int) -> Iterator[None]:
    """Lets no file get more than so many bytes. Python keeps no half of what it compiles then."""
    limits = resource.getrlimit(resource.RLIMIT_FSIZE)
    with mock.patch.object(sys, "dont_write_bytecode", True), mock.patch.dict(os.environ, PYTHONDONTWRITEBYTECODE="1"):
        resource.setrlimit(resource.RLIMIT_FSIZE, (most, limits[1]))
        try:
            yield
        finally:
            resource.setrlimit(resource.RLIMIT_FSIZE, limits)


def machine_of(data: bytes) -> Any:
    """A task of the second reading before its first turn."""
    return Machine(wasm.Decoder(data).module())


def some_programs(seed: int, count: int, most: int) -> list[tuple[bytes, int]]:
    """Random modules that run for at least 40 turns, and how many turns they make, at most `most`."""
    random.seed(seed)
    found: list[tuple[bytes, int]] = []
    while len(found) < count:
        data = frames.program() if random.random() < 0.5 else programs.program()
        if wasm.refusals_of(data):
            continue
        machine = machine_of(data)
        machine.run(most)
        if machine.turns >= 40:
            found.append((data, machine.turns))
    return found
