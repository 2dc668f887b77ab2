"""Names of functions as their authors wrote them, by the program c++filt of Debian's binutils if it is there.

It knows the names of C++ (`_ZN5count4wordEPKc`), and both kinds of those of Rust (`_ZN4prog5total17h0123456789abcdefE`,
`_RNvC6_123foo3bar`).
"""
from __future__ import annotations

import re
import shutil
import subprocess
from collections.abc import Iterable

MANGLED = re.compile(r"_?_(Z|R)[\w$.]+")
SUFFIX = re.compile(r"\.llvm\.\d+$")
HASH = re.compile(r"::h[0-9a-f]{16}$|(?<=\w)\[[0-9a-f]{1,16}\](?=::)")
PATIENCE = 20.0


def demangled(names: Iterable[str]) -> dict[str, str]:
    """The names as they were written, by those of them that have another form; none without c++filt. The hash that Rust
    adds to a name is left out."""
    asked = [name for name in names if MANGLED.fullmatch(name)]
    program = shutil.which("c++filt")
    if program is None or not asked:
        return {}
    lines = "".join(SUFFIX.sub("", name) + "\n" for name in asked)
    try:
        run = subprocess.run([program], input=lines, capture_output=True, encoding="utf-8", errors="replace", check=True,
                             timeout=PATIENCE)
    except (OSError, subprocess.SubprocessError):
        return {}
    found = run.stdout.splitlines()
    return {name: HASH.sub("", told) for name, told in zip(asked, found)} if len(found) == len(asked) else {}
