"""Where the program of the shim is, and what its commands for files answer."""
from __future__ import annotations

import os
import shutil
import subprocess
import sys
from pathlib import Path

from feulgama.errors import FeulgamaError, NoShimError

VARIABLE, NAME = "FEULGAMA_SHIM", "wasm-shim"
HERE = Path(__file__).resolve()
IN_CLONE = Path("clients/python/feulgama/program.py")
PATIENCE = 10.0


class NoAssemblyError(FeulgamaError):
    """A file is no module. The message has the lines of the program, as `refused 18 BadText line 1 column 9`."""


NoAssembly = NoAssemblyError


def built() -> Path | None:
    """Where a build of this clone puts the program; None if this package is not in a clone."""
    top = HERE.parents[3] if len(HERE.parents) > 3 else HERE
    return top / "crates/wasm_shim/out/wasm_shim" if top / IN_CLONE == HERE else None


def program(named: str | os.PathLike[str] | None = None) -> list[str]:
    """The words that call the program: the one named, or that of the environment variable FEULGAMA_SHIM, or `wasm-shim`
    on PATH, or the one that a build of this clone made. A name that ends in .py is run by this Python. Raises
    NoShimError, which says where it was looked for."""
    if named:
        return words_of(os.fspath(named), "the argument")
    if os.environ.get(VARIABLE):
        return words_of(os.environ[VARIABLE], VARIABLE)
    on_path, in_clone = shutil.which(NAME), built()
    if on_path is not None:
        return [on_path]
    if in_clone is not None and in_clone.is_file():
        return [str(in_clone)]
    missing = "this package is not in a clone" if in_clone is None else f"there is no {in_clone}, which tools/shim builds"
    raise NoShimError(f"no program of the shim was found: no argument and no {VARIABLE} names one, there is no {NAME} on "
                      f"PATH, and {missing}")


def words_of(name: str, source: str) -> list[str]:
    """The words that call the program of a name: a file, or a word that is looked for on PATH."""
    found = name if Path(name).is_file() else shutil.which(name)
    if found is None:
        raise NoShimError(f"there is no program {name}, which {source} names as that of the shim")
    return [sys.executable, found] if found.endswith(".py") else [found]


def serving(named: str | os.PathLike[str] | None, workers: int | None, explain: bool = True) -> list[str]:
    """The words that start a shim; with this many workers, or as many as the program has by itself."""
    return [*program(named), "serve", *(["--explain"] if explain else []),
            *([] if workers is None else ["--workers", str(workers)])]


def ran(words: list[str], data: bytes = b"", timeout: float | None = None) -> subprocess.CompletedProcess[bytes]:
    """What a command of the program does with these bytes on its standard input."""
    try:
        return subprocess.run(words, input=data, capture_output=True, check=False, timeout=timeout)
    except (OSError, subprocess.TimeoutExpired) as error:
        raise NoShimError(f"{' '.join(words)}: {error}") from error


def assemble(text: bytes, words: list[str]) -> bytes:
    """The bytes of the module that a text denotes, by the program's command `asm`. Raises NoAssemblyError if it denotes
    none, and NoShimError if the program cannot be run."""
    run = ran([*words, "asm", "--explain", "/dev/stdin"], text)
    if run.returncode != 0:
        raise NoAssemblyError(said_by(run) or f"asm ended with status {run.returncode}")
    try:
        return bytes.fromhex(run.stdout.decode("ascii").strip())
    except ValueError as error:
        raise NoAssemblyError(f"{words[-1]} asm wrote what is no module in hexadecimal: is it wasm-shim?") from error


def refusal_by_check(data: bytes, memory_limit: int | None, words: list[str]) -> str | None:
    """What the program's command `check --task --explain` says of a module that it refuses; None if it refuses it not."""
    memory = [] if memory_limit is None else ["--memory", str(memory_limit)]
    run = ran([*words, "check", "--task", *memory, "--explain", "/dev/stdin"], data)
    return said_by(run) if run.returncode == 3 else None


def version_of(words: list[str]) -> str:
    """What the program says of its version, as `wasm-shim 0.2.0`."""
    run = ran([*words, "--version"], timeout=PATIENCE)
    return run.stdout.decode(errors="replace").strip() if run.returncode == 0 else f"{words[-1]}: no version"


def said_by(run: subprocess.CompletedProcess[bytes]) -> str:
    """The lines of a command's standard error, as one."""
    return "; ".join(run.stderr.decode(errors="replace").split("\n")).strip("; ")
