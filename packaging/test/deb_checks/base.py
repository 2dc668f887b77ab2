"""What the checks share: the package that is built, and what has to be there for that."""
from __future__ import annotations

import os
import shutil
import sys
import unittest
from dataclasses import dataclass
from pathlib import Path
from typing import ClassVar

from checks.images import TOP
from checks.machine import PACKAGES, Machine, command, missing, must

BUILD = TOP / "packaging/build-deb"
PACKAGES.update({"dpkg-buildpackage": "dpkg-dev", "git": "git", "lintian": "lintian",
                 "mmdebstrap": "mmdebstrap", "zsh": "zsh"})
TOOLS = ("dpkg-buildpackage", "git", "go", "lintian", "mmdebstrap", "zsh")


@dataclass
class Setting:
    """What all checks of a run share."""

    machine: Machine
    program: Path
    package: Path
    base: Path | None  # a folder with Debian's packages, which is copied


class Check(unittest.TestCase):
    """A check of the run."""

    setting: ClassVar[Setting]


def can_run(program: Path) -> bool:
    """Whether the tests can be run at all; standard error says why not."""
    lacking = command(["dpkg-checkbuilddeps", TOP / "packaging/debian/control"])
    absent = missing(TOOLS)
    if not program.is_file():
        print(f"{program} is not there: tools/shim --version builds it, and --program names another", file=sys.stderr)
    elif os.geteuid() != 0:
        print("these tests make mounts and containers, and need to be root", file=sys.stderr)
    elif lacking.status or absent:
        print(f"To run: apt-get install -y --no-install-recommends {' '.join(absent)}\n{lacking.err}", file=sys.stderr)
    else:
        return True
    return False


def build(program: Path, to: Path) -> Path:
    """Builds the package of a program. Raises RuntimeError if it fails."""
    lines = must([BUILD, to], {**os.environ, "PROGRAM": str(program)}, seconds=1200).splitlines()
    return Path(lines[-1])


def prepare(machine: Machine, program: Path, base: Path | None) -> Setting:
    """Builds the package, from a copy of the program, so that its name says nothing."""
    copy = machine.folder / "wasm-shim"
    shutil.copy(program, copy)
    copy.chmod(0o755)
    return Setting(machine, copy, build(copy, machine.folder / "out"), base)
