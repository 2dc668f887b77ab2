"""Where the repository is, its built programs, and the packages of Debian that bring other programs."""
from __future__ import annotations

import os
import shutil
from pathlib import Path

from suite.summary import NotRun

TOP = Path(__file__).resolve().parents[2]
EXAMPLES = TOP / "examples"
CLIENT = TOP / "clients/python"
# The environment variable that names a built program in place of the one in crates/NAME/out, and what builds that.
BUILT = {"wasm_shim": ("PROGRAM", "make build"),
         "test_inputs": ("TEST_INPUTS", "rt run </dev/null in crates/test_inputs"),
         "test_allocations": ("TEST_ALLOCATIONS", "rt run </dev/null in crates/test_allocations")}


def built(crate: str = "wasm_shim") -> Path:
    """The program of a crate. The environment may name it; else it is the one that is built in this repository."""
    variable, build = BUILT[crate]
    named = os.environ.get(variable)
    path = Path(named).resolve() if named else TOP / "crates" / crate / "out" / crate
    if not path.is_file():
        raise NotRun(f"{path} is not there: build it ({build}), or name it by {variable}=FILE")
    return path


def is_stale(path: Path) -> bool:
    """Whether a program of this repository is older than the sources, so that what is seen of it may be of the past."""
    if TOP / "crates" not in path.parents:
        return False
    made = path.stat().st_mtime
    return any(source.stat().st_mtime > made for part in ("src", "specs", "proofs")
               for source in (TOP / "crates").glob(f"*/{part}/**/*") if source.is_file())


def need(packages: dict[str, str]) -> None:
    """Asserts that other programs are there: each with the package of Debian that brings it."""
    lacking = sorted({package for name, package in packages.items() if shutil.which(name) is None})
    if lacking:
        raise NotRun(f"packages are missing: apt-get install -y --no-install-recommends {' '.join(lacking)}")
