"""The rights that a shim is left: those of nobody, without a network, with limits of memory and files."""
from __future__ import annotations

import os
from dataclasses import dataclass

NOBODY = 65_534
MEMORY = 1 << 30  # bytes of address space, in which some tasks of 16 MiB have room
FILES = 256


@dataclass(frozen=True, slots=True)
class Confinement:
    """The words before a program that take rights from it, and the user that it becomes by them, if it is another one."""
    words: tuple[str, ...]
    user: int | None


def confinement(memory: int = MEMORY, files: int = FILES) -> Confinement:
    """What confines a program by the commands of util-linux: to so many bytes of address space, or with 0 any number.
    Without the rights of root it keeps its user, and has the limits only."""
    limits = ("prlimit", *([f"--as={memory}:{memory}"] if memory else []), f"--nofile={files}:{files}", "--core=0:0")
    if os.geteuid() != 0:
        return Confinement(limits, None)
    return Confinement((*limits, "unshare", "--net", "--ipc", "--uts", "setpriv", f"--reuid={NOBODY}", f"--regid={NOBODY}",
                        "--clear-groups", "--no-new-privs", "--inh-caps=-all", "--bounding-set=-all"), NOBODY)
