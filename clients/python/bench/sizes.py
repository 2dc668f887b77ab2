"""Sizes and turns of lowered programs, the rows of docs/TOOLCHAINS.md. In clients/python:

    /usr/bin/python3 -m bench.sizes [PROGRAM [LUA]]

PROGRAM is looked for as the library does, if it is not told or empty. LUA is the folder that `apt-get source lua5.4` makes. A
row has the bytes of the module, those of the lowered one, and its turns on the shim. clang 14 builds the programs of C without
binaryen's wasm-opt. The module of Rust has the path of its source in it, so its size may be another by some bytes.
"""
from __future__ import annotations

import os
import shutil
import sys
import tempfile
from collections.abc import Iterator
from pathlib import Path

import feulgama
from feulgama.lowering import lower
from tests import float_builds as builds
from tests import float_programs as f
from tests.small_programs import ALL

ARGS, ENV, MEMORY = ("module", "one", "two"), {"KEY": "value"}, 4 * 2**20


def leave_out_wasm_opt(folder: Path) -> None:
    """Sets a PATH that has clang and its linker only: clang calls binaryen's wasm-opt where it finds it."""
    folder.mkdir()
    for name in ("clang-14", "clang++-14", "wasm-ld-14"):
        found = shutil.which(name)
        if found is not None:
            (folder / name).symlink_to(found)
    os.environ["PATH"] = str(folder)


def modules(folder: Path, sources: Path | None) -> Iterator[tuple[str, bytes]]:
    """The programs, each with its name. What needs wasm-opt comes first."""
    yield "Emscripten: formats", builds.built(folder, ALL + f.PROGRAMS[0].text, ".c", *builds.EMSCRIPTEN)
    yield "Rust", builds.rust(folder)
    leave_out_wasm_opt(folder / "bin")
    for one in f.PROGRAMS:
        yield f"C: {one.name}", builds.built(folder, ALL + one.text, ".c", *builds.C, "-Wl,--strip-all")
    yield "C++", builds.cpp(folder)
    if sources is not None:
        yield "Lua", builds.lua(folder, sources)


def turns(shim: feulgama.Shim, data: bytes) -> int:
    """How many turns a run makes."""
    task = shim.create(feulgama.Config(shim.ensure(data), ARGS, ENV, MEMORY)).id
    shim.start(task)
    return shim.wait(task).turns


def main(words: list[str]) -> None:
    """Prints a row for each program."""
    print("| Program | Bytes | Lowered | Turns |\n|---|---|---|---|")
    with tempfile.TemporaryDirectory() as name, feulgama.Shim(words[0] if words and words[0] else None) as shim:
        for title, data in modules(Path(name), Path(words[1]).resolve() if len(words) > 1 else None):
            lowered = lower(data).data
            print(f"| {title} | {len(data):,} | {len(lowered):,} | {turns(shim, lowered):,} |", flush=True)


if __name__ == "__main__":
    main(sys.argv[1:])
