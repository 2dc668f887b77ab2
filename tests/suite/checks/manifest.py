"""The manifest: how many cases each suite has, so that no test is lost unseen.

tests/manifest.txt has a line for each suite: PATTERN COUNT UNIT, and after `#` what runs it. A unit is `files` (the files that
fit the pattern), `lines` (those of the files) or `tests` (the test functions in them). Each pattern has one line. Each file of
tests has to fit the pattern of a line.
"""
from __future__ import annotations

import ast
import re
from collections import Counter
from collections.abc import Iterator
from dataclasses import dataclass

from suite.checks.tree import Tree

LIST = "tests/manifest.txt"
# What is a test, or the data of one. Each such file belongs to a suite.
TESTS = ("*/test_*.py", "*_test.go", "examples/*", "crates/*/attacks/*", "crates/*/must-fail/*", "crates/test_inputs/data/*",
         "crates/*/stdin", "tests/*.expected", "tests/data/*", "clients/*/examples/*")


@dataclass(frozen=True)
class Suite:
    """A line of the manifest."""
    pattern: str
    count: int
    unit: str
    run_by: str

    def __str__(self) -> str:
        return f"{self.pattern} {self.count} {self.unit}" + (f"  # {self.run_by}" if self.run_by else "")


def test_functions(name: str, text: str) -> int:
    """How many test functions a file of Python or Go has."""
    if name.endswith(".go"):
        return len(re.findall(r"^func (?:Test|Fuzz|Example)\w*\(", text, re.MULTILINE))
    return sum(isinstance(node, (ast.FunctionDef, ast.AsyncFunctionDef)) and node.name.startswith("test")
               for node in ast.walk(ast.parse(text)))


def counted(tree: Tree, pattern: str, unit: str) -> int:
    """How many cases the files have that fit a pattern."""
    names = tree.matching(pattern)
    if unit == "files":
        return len(names)
    if unit == "lines":
        return sum(tree.bytes(name).count(b"\n") for name in names)
    return sum(test_functions(name, tree.text(name)) for name in names)


def read(text: str) -> Iterator[Suite | str]:
    """The lines of a manifest; one that has another form is a sentence that says so."""
    for line in text.splitlines():
        row, _, run_by = line.partition("#")
        words = row.split()
        if len(words) == 3 and words[1].isdigit() and words[2] in ("files", "lines", "tests"):
            yield Suite(words[0], int(words[1]), words[2], run_by.strip())
        elif words:
            yield f"{LIST}: not a line of the form PATTERN COUNT UNIT: {line}"


def check(tree: Tree) -> tuple[int, list[str]]:
    """How many cases the manifest has in all, and where it and the files differ."""
    rows = list(read(tree.text(LIST))) if tree.has(LIST) else [f"{LIST} is not there"]
    faults = [row for row in rows if isinstance(row, str)]
    suites = [row for row in rows if isinstance(row, Suite)]
    patterns = Counter(suite.pattern for suite in suites)
    faults += [f"{LIST}: {pattern} has {lines} lines" for pattern, lines in patterns.items() if lines > 1]
    for suite in suites:
        found = counted(tree, suite.pattern, suite.unit)
        if found != suite.count or not found:
            faults.append(f"{suite.pattern}: {LIST} says {suite.count} {suite.unit}, and there are {found} "
                          "(after a change that is meant: tests/run manifest --write)")
    known = set(tree.matching(*(suite.pattern for suite in suites)))
    faults += [f"{name}: a file of tests that no line of {LIST} names" for name in tree.matching(*TESTS) if name not in known]
    return sum(suite.count for suite in suites), faults


def written(tree: Tree) -> str:
    """The text of the manifest with the counts that are true now."""
    lines = []
    for line in tree.text(LIST).splitlines():
        for row in read(line):
            if isinstance(row, Suite):
                line = str(Suite(row.pattern, counted(tree, row.pattern, row.unit), row.unit, row.run_by))
        lines.append(line)
    return "\n".join(lines) + "\n"


def main(words: list[str]) -> int:
    """The command `manifest`: compares, or with --write sets the counts."""
    from suite.checks.tree import TOP
    tree = Tree(TOP)
    if words == ["--write"]:
        (TOP / LIST).write_text(written(tree))
    elif words:
        print(f"usage: tests/run manifest [--write]\n\n{__doc__}")
        return 0 if words in (["-h"], ["--help"]) else 2
    count, faults = check(tree)
    print(*faults, f"manifest: {count} cases, {len(faults)} faults", sep="\n")
    return 1 if faults else 0
