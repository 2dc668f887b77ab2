"""Builds the programs of tests.float_programs as their toolchains do by themselves. Each is built in a folder of its own."""
from __future__ import annotations

import json
import subprocess
from pathlib import Path

from tests import float_programs as f

C = ("clang-14", "--target=wasm32-wasi", "--sysroot=/usr", "-O2", "-lm")
C_BY_22 = ("clang-22", "--target=wasm32-wasi", "--sysroot=/usr", "-O2", "-Wno-deprecated", "-lm")
EMSCRIPTEN = ("emcc", "-O2", "-s", "STANDALONE_WASM", "-s", "INITIAL_MEMORY=1048576", "-s", "TOTAL_STACK=65536")
RUST = ("/usr/bin/rustc", "--target", "wasm32-wasi", "-C", "opt-level=s", "-C", "panic=abort", "-C", "lto=fat",
        "-C", "strip=symbols", "-A", "warnings")
STRIPPED = ("-Wl,--strip-all", "-Wl,-z,stack-size=65536")
# Files of Lua that the main program has no use for, or that wasi-libc is too small for.
LUA_WITHOUT = ("lua", "luac", "linit", "loslib", "liolib", "ldblib", "loadlib", "lcorolib", "lutf8lib")


def built(folder: Path, text: str, suffix: str, *command: str) -> bytes:
    """The module that a compiler makes of a text."""
    source, out = folder / f"program{suffix}", folder / "program.wasm"
    source.write_text(text)
    subprocess.run([*command, "-o", out, source], check=True, cwd=folder)
    return out.read_bytes()


def cpp(folder: Path) -> bytes:
    """The program of C++, with a sysroot that has wasi-libc only."""
    sysroot = folder / "sysroot"
    (sysroot / "lib").mkdir(parents=True)
    (sysroot / "include").symlink_to("/usr/include/wasm32-wasi")
    (sysroot / "lib/wasm32-wasi").symlink_to("/usr/lib/wasm32-wasi")
    return built(folder, f.CPP, ".cc", "clang++-14", "--target=wasm32-wasi", f"--sysroot={sysroot}", "-std=c++17", "-Os",
                 "-stdlib=libc++", "-isystem", f"{sysroot}/include/c++/v1", "-fno-exceptions", *STRIPPED)


def rust(folder: Path) -> bytes:
    """The program of Rust."""
    return built(folder, f.RUST, ".rs", *RUST)


def lua(folder: Path, sources: Path) -> bytes:
    """The interpreter with its script, of the folder of Lua's sources."""
    headers = folder / "headers"
    headers.mkdir()
    for name, lines in f.LUA_HEADERS.items():
        (headers / name).write_text(lines)
    files = [str(file) for file in sorted((sources / "src").glob("*.c")) if file.stem not in LUA_WITHOUT]
    text = f.LUA_MAIN.replace("SCRIPT", json.dumps(f.LUA))
    return built(folder, text, ".c", "clang-14", "--target=wasm32-wasi", "--sysroot=/usr", "-Os", f"-I{headers}",
                 f"-I{sources}/src", *f.LUA_FLAGS, *files, "-lm", *STRIPPED)
