"""The worked rows: their names among what `test_inputs` reads, and their files, in which `<COUNT*TEXT>` is the text repeated
that number of times."""
from __future__ import annotations

import re

RUN = re.compile(rb"<(\d+)\*([^>]*)>")


def spelled(data: bytes) -> bytes:
    """The lines that a file spells."""
    return RUN.sub(lambda match: int(match[1]) * match[2], data)


def part(script: str, name: str) -> list[str]:
    """The lines of a part of what `test_inputs` reads or prints: those after its head, `[NAME]`, and before the next one."""
    after = f"\n{script}".partition(f"\n[{name}]\n")[2]
    return after.partition("\n[")[0].splitlines()
