"""Modules that have to be lowered, written byte by byte, and the command that does it."""
from __future__ import annotations

import shutil
import struct
from pathlib import Path

TOP = Path(__file__).resolve().parents[4]
# Of _start, a function without parameters, which calls proc_exit as the function 0.
HEAD = bytes.fromhex("0061736d01000000 0108026001 7f00 600000".replace(" ", ""))
IMPORT = b"\x02\x24\x01\x16wasi_snapshot_preview1\x09proc_exit\0\0"
REST = bytes.fromhex("03020101 0503010001".replace(" ", "")) + b"\x07\x13\x02\x06memory\x02\0\x06_start\0\x01"
ANNOTATION = "dev.shim.lower"


def number(value: int) -> bytes:
    """A size in LEB128."""
    low, rest = value & 127, value >> 7
    return bytes([low | 128]) + number(rest) if rest else bytes([low])


def module(body: bytes) -> bytes:
    """A module whose _start has a body."""
    code = b"\0" + body + b"\x0b"
    section = b"\x01" + number(len(code)) + code
    return HEAD + IMPORT + REST + b"\x0a" + number(len(section)) + section


def double(value: float) -> bytes:
    """f64.const."""
    return b"\x44" + struct.pack("<d", value)


MODULES = {
    # f64.add, i32.trunc_f64_s and proc_exit: the status 4.
    "double": module(double(1.5) + double(2.5) + b"\xa0\xaa\x10\0"),
    # memory.fill of four bytes from 16 on with 9, of which the one at 18 is the status.
    "bulk": module(b"\x41\x10\x41\x09\x41\x04\xfc\x0b\0\x41\x12\x2d\0\0\x10\0"),
    # v128.const
    "vector": module(b"\xfd\x0c" + bytes(16) + b"\x1a"),
    # 240,000 square roots, each of which becomes a call.
    "roots": module(double(1.0) + b"\x9f" * 240_000 + b"\x1a"),
}


def put_command(folder: Path) -> None:
    """Puts the command feulgama into a folder of programs, with its package, so that every user can run it."""
    shutil.copytree(TOP / "clients/python/feulgama", folder / "python/feulgama",
                    ignore=shutil.ignore_patterns("__pycache__"))
    command = folder / "feulgama"
    command.write_text(f'#!/bin/sh\nPYTHONPATH={folder}/python exec /usr/bin/python3 -P -m feulgama "$@"\n')
    for path in (command, *folder.glob("python/**/*"), folder / "python"):
        path.chmod(0o755 if path.is_dir() or path == command else 0o644)
