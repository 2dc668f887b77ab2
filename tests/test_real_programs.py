"""The C and Rust programs of examples/, by another engine: what node's WASI writes is what the stored replies have.

It needs node; to build the sources again it needs Debian's clang-14, lld-14, wasi-libc, libclang-rt-14-dev-wasm32, rustc and
libstd-rust-dev-wasm32 as well. The compilers that made the modules of the scripts make the same bytes again. What another
version of them makes has to write the same, with the arguments and the environment of the script's config.
test_examples.py runs the scripts through the built program.
"""
from __future__ import annotations

import json
import os
import shutil
import subprocess
from pathlib import Path
from typing import Any

import pytest

from suite.places import EXAMPLES, need
from suite.summary import NotRun

CLANG = ["clang-14", "--target=wasm32-wasi", "--sysroot=/usr", "-mcpu=mvp", "-O2", "-Wl,-z,stack-size=8192", "-Wl,--strip-all"]
RUSTC = ["/usr/bin/rustc", "--target", "wasm32-wasi", "-C", "opt-level=s", "-C", "panic=abort", "-C", "lto=fat",
         "-C", "target-cpu=mvp", "-C", "link-arg=-zstack-size=65536", "-C", "strip=symbols"]
RUNNER = """
import { WASI } from 'node:wasi';
import fs from 'node:fs';
const [file, args, env] = JSON.parse(process.argv[2]);
const wasi = new WASI({ version: 'preview1', args, env, returnOnExit: true });
const module = await WebAssembly.compile(fs.readFileSync(file));
process.exitCode = wasi.start(await WebAssembly.instantiate(module, wasi.getImportObject()));
"""
SOURCES = sorted([*EXAMPLES.glob("*.c"), *EXAMPLES.glob("*.rs")])


# What the compilers of the modules in examples/ say of their versions.
VERSIONS = ("Debian clang version 14.0.6", "rustc 1.63.0")
NEEDED = "clang-14 lld-14 wasi-libc libclang-rt-14-dev-wasm32 rustc libstd-rust-dev-wasm32"


def path_of_clang(folder: Path) -> str:
    """A PATH that has clang and its linker and nothing else: clang would call binaryen's wasm-opt if it were there."""
    for name in ("clang-14", "wasm-ld-14"):
        found = shutil.which(name)
        if found is None:
            raise NotRun(f"{name} is not there: apt-get install -y --no-install-recommends {NEEDED}")
        (folder / name).symlink_to(found)
    return str(folder)


def rebuilt(source: Path, folder: Path) -> tuple[bytes, str]:
    """The module that the compiler which is there makes of a source, and what that says of its version."""
    out, command = folder / "built.wasm", RUSTC if source.suffix == ".rs" else CLANG
    env = os.environ if command is RUSTC else {**os.environ, "PATH": path_of_clang(folder)}
    try:
        done = subprocess.run([*command, "-o", out, source], env=env, capture_output=True, text=True, check=False)
        version = subprocess.run([command[0], "--version"], env=env, capture_output=True, text=True, check=True).stdout
    except OSError as error:
        raise NotRun(f"{error.filename} is not there: apt-get install -y --no-install-recommends {NEEDED}") from error
    if done.returncode:
        raise NotRun(f"{source.name} cannot be built: {done.stderr.strip().splitlines()[-1:]}")
    return out.read_bytes(), version.splitlines()[0]


def run_elsewhere(data: bytes, process: dict[str, Any], folder: Path) -> subprocess.CompletedProcess[bytes]:
    module, runner = folder / "stored.wasm", folder / "run.mjs"
    module.write_bytes(data)
    runner.write_text(RUNNER)
    env = dict(entry.split("=", 1) for entry in process.get("env", []))
    given = json.dumps([str(module), process["args"], env])
    return subprocess.run(["node", "--no-warnings", runner, given], stdout=subprocess.PIPE, check=False)


def lines_of(path: Path) -> list[dict[str, Any]]:
    return [json.loads(line) for line in path.read_text().splitlines()]


def compare(source: Path, data: bytes, folder: Path) -> None:
    """Compares what a module writes in node with what the script's replies have."""
    need({"node": "nodejs"})
    _, create, *_ = lines_of(source.with_suffix(".jsonl"))
    *_, state, output = lines_of(source.with_suffix(".expected"))
    done = run_elsewhere(data, json.loads(create["config"])["process"], folder)
    assert done.stdout.hex() == output["hex"]
    assert done.returncode == state["exit"]


def stored(source: Path) -> bytes:
    """The module of a script."""
    put, *_ = lines_of(source.with_suffix(".jsonl"))
    return bytes.fromhex(put["hex"])


@pytest.mark.parametrize("source", SOURCES, ids=lambda source: str(source.name))
def test_other_engine(source: Path, tmp_path: Path) -> None:
    compare(source, stored(source), tmp_path)


@pytest.mark.parametrize("source", SOURCES, ids=lambda source: str(source.name))
def test_build(source: Path, tmp_path: Path) -> None:
    data, version = rebuilt(source, tmp_path)
    if version.startswith(VERSIONS):
        assert data == stored(source), version
    else:
        compare(source, data, tmp_path)
