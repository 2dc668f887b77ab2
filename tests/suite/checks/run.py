"""What the gate checks before any proof: deterministic, in minutes, without a built program and without the prover.

    tests/run check-ci [CHECK..]

Without a CHECK all of them are done. A package that is missing is a fault, and is named with the line of apt that brings it;
nothing is passed over. Standard output has a line for each check, with the faults before it, and at the end
`check-ci: N passed, M failed`: how many checks. The status is 1 if one failed, and 2 if the command line is wrong.
"""
from __future__ import annotations

import concurrent.futures
import sys
import time
from collections.abc import Callable
from dataclasses import dataclass

from suite.checks import edits, layout, links, listed_calls, manifest, memory_words, named_code, programs, versions
from suite.checks.tree import TOP, Tree

CHECKS: dict[str, Callable[[Tree], tuple[int, list[str]]]] = {
    # The longest first.
    "client-tests": programs.check_client_tests,
    "client-types": programs.check_client_types,
    "own-tests": programs.check_own_tests,
    "oci-tests": programs.check_oci_tests,
    "types": programs.check_mypy,
    "style": programs.check_flake8,
    "go": programs.check_go,
    "tools": programs.check_tools,
    "edits": edits.check,
    "memory-words": memory_words.check,
    "listed-calls": listed_calls.check,
    "links": links.check,
    "named-code": named_code.check,
    "versions": versions.check,
    "manifest": manifest.check,
    "layout": layout.check,
}
# How many are done at once.
TOGETHER = 2


@dataclass(frozen=True)
class Done:
    """A check that was made."""
    name: str
    count: int
    faults: list[str]
    seconds: float

    def __str__(self) -> str:
        said = "ok" if not self.faults else f"FAILED, {len(self.faults)} faults"
        return "\n".join([*self.faults, f"{self.name}: {said} ({self.count} looked at, {self.seconds:.0f} s)"])


def made(name: str, tree: Tree) -> Done:
    begun = time.monotonic()
    count, faults = CHECKS[name](tree)
    return Done(name, count, faults, time.monotonic() - begun)


def all_of(names: list[str], tree: Tree) -> int:
    """Makes these checks, and prints what came of each as soon as it is known. How many failed."""
    failed = 0
    with concurrent.futures.ThreadPoolExecutor(TOGETHER) as pool:
        for future in concurrent.futures.as_completed([pool.submit(made, name, tree) for name in names]):
            print(future.result(), flush=True)
            failed += bool(future.result().faults)
    return failed


def main(words: list[str]) -> int:
    unknown = [word for word in words if word not in CHECKS]
    if unknown:
        print(f"{__doc__}\nThe checks: {', '.join(CHECKS)}")
        return 0 if set(words) <= {"-h", "--help"} else 2
    tree = Tree(TOP)
    lacking = programs.missing(tree)
    if lacking:
        print("check-ci: packages are missing: apt-get install -y --no-install-recommends", *lacking, file=sys.stderr)
        print("check-ci: 0 passed, 1 failed")
        return 1
    names = words or list(CHECKS)
    failed = all_of(names, tree)
    print(f"check-ci: {len(names) - failed} passed, {failed} failed")
    return 1 if failed else 0
