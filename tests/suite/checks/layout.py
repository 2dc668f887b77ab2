"""Layout of all files: spaces at a line's end, tabs, line ends, the line feed at the end of a file, marks that a merge
left, and how long a file is."""
from __future__ import annotations

import re
from collections.abc import Iterator

from suite.checks.tree import Tree

# Data: what programs are given and print, byte by byte, and edits, whose texts are what they are.
DATA = re.compile(r".*\.(edit|jsonl|expected|png|wasm|debug|cases)|.*/(stdin|stdout)|crates/test_inputs/data/.*")
# Where a line may begin with a tab.
TABS = re.compile(r"(.*/)?Makefile|.*\.(go|mod)|(.*/)?debian/rules")
# What a person reads whole. Proofs are not.
CODE = re.compile(r"crates/[^/]*/(src|specs)/.*|.*\.(py|go|el|c)|(tools|tests)/[^.]*")
MOST_LINES = 800


def faults_of(name: str, data: bytes) -> Iterator[str]:
    """What is wrong with a file that is no data, a sentence each."""
    lines = data.split(b"\n")
    ends = [n for n, line in enumerate(lines, 1) if line != line.rstrip(b" \t")]
    marks = [n for n, line in enumerate(lines, 1) if line.startswith((b"<<<<<<< ", b">>>>>>> "))]
    if marks:
        yield f"{name}:{marks[0]}: has the mark of a merge"
    if b"\r" in data:
        yield f"{name}: has carriage returns"
    if ends:
        yield f"{name}:{ends[0]}: has spaces at the end of a line ({len(ends)} such lines)"
    if b"\t" in data and not TABS.fullmatch(name):
        yield f"{name}: has tabs"
    if data and not data.endswith(b"\n"):
        yield f"{name}: does not end with a line feed"
    if CODE.fullmatch(name) and len(lines) > MOST_LINES:
        yield f"{name}: has {len(lines) - 1} lines, and at most {MOST_LINES - 1} are allowed: split it by subject"


def check(tree: Tree) -> tuple[int, list[str]]:
    """How many files were looked at, and what is wrong with them."""
    names = [name for name in tree.files if not DATA.fullmatch(name)]
    return len(names), [fault for name in names for fault in faults_of(name, tree.bytes(name))]
