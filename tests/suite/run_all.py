"""Runs suites one after another, with one summary of all.

    tests/run all [--quick] [SUITE..]

Without a SUITE all of them are run; with --quick those that take some minutes together, which are marked below. What a suite
prints comes as it is printed. PROGRAM in the environment names the built program; else it is that of this repository. A suite
that lacks a package or a program says which, and counts as not run. At the end come a line for each suite and their sum,
`all: N passed, M failed, K not run`. The status is 1 if something failed, or if no case of all was run.
"""
from __future__ import annotations

import argparse
import contextlib
import os
import subprocess
import sys
import time
from dataclasses import dataclass, field
from pathlib import Path

from suite.places import CLIENT, TOP, built, is_stale
from suite.summary import COULD_NOT, NotRun, Summary, read

PYTEST = (sys.executable, "-B", "-m", "pytest", "-q", "-p", "no:cacheprovider", "-p", "suite.counted", "-rs")


@dataclass(frozen=True)
class Suite:
    """A suite: its command line, the folder that it is run in, whether it is quick, more variables of its environment,
    and whether all of it needs the program, and would not say so itself."""
    name: str
    command: tuple[str, ...]
    is_quick: bool = False
    folder: Path = TOP
    more: dict[str, str] = field(default_factory=dict)
    needs_program: bool = False


def of_tests(name: str, *files: str) -> Suite:
    """A suite of test files, all of which are quick."""
    return Suite(name, (*PYTEST, *files), True, TOP, {"SUITE": name})


def of_command(*words: str, is_quick: bool = False) -> Suite:
    """A suite that is a command of tests/run."""
    return Suite(" ".join(words), (sys.executable, "-B", "-m", "suite", *words), is_quick)


SUITES = [
    of_tests("own-tests", "tests/test_checks.py", "tests/test_gate.py", "tests/test_suites.py", "tests/test_tools.py"),
    of_tests("examples", "tests/test_examples.py"),
    of_tests("pages", "tests/test_pages.py", "tests/test_kubernetes.py"),
    of_tests("rows", "tests/test_rows.py", "tests/test_machine_code.py"),
    of_tests("live-callers", "tests/test_live_callers.py", "tests/test_log.py", "tests/test_memory.py", "tests/test_units.py",
             "tests/test_workers.py"),
    Suite("clients/python", (*PYTEST, "tests"), True, CLIENT, {"SUITE": "clients/python"}, needs_program=True),
    Suite("floats", (*PYTEST, "--slow", "tests"), False, CLIENT, {"SUITE": "floats"}),
    of_tests("real-programs", "tests/test_real_programs.py"),
    of_tests("dap-emacs", "tests/test_dap_emacs.py"),
    of_command("check-history", "--self-test", is_quick=True),
    of_command("compare-text", is_quick=True),
    of_command("compare"),
    of_command("compare", "--both"),
    of_command("compare-reasons"),
    of_command("compare-serve-reasons"),
    of_command("serve-threads"),
    of_command("refuse-allocations"),
    of_command("hostile"),
]


def environment(suite: Suite) -> dict[str, str]:
    """The variables of a suite: where the package is, and which program a client starts."""
    try:
        shim = {"FEULGAMA_SHIM": str(built())}
    except NotRun:
        shim = {}
    return {**os.environ, "PYTHONPATH": str(TOP / "tests"), **shim, **suite.more}


def is_told_by(status: int, found: Summary) -> bool:
    """Whether a suite may end with this status after such a summary. One that could not be run has passed nothing; pytest also
    has that status if it is broken off, and then tests are missing."""
    return status == found.status or status == COULD_NOT and not found.passed and found.not_run > 0


def run(suite: Suite) -> Summary:
    """Runs a suite, and shows what it prints. A suite that ends without a summary has failed."""
    print(f"== {suite.name}", flush=True)
    try:
        _ = suite.needs_program and built()
    except NotRun as lack:
        print(f"not run: {lack}", flush=True)
        return Summary(suite.name, not_run=1)
    found = None
    with subprocess.Popen(suite.command, cwd=suite.folder, env=environment(suite), stdin=subprocess.DEVNULL,
                          stdout=subprocess.PIPE, stderr=subprocess.STDOUT, text=True, errors="replace") as process:
        assert process.stdout is not None
        for line in process.stdout:
            print(line, end="", flush=True)
            found = read(line) or found
    if found is None or not is_told_by(process.returncode, found):
        print(f"{suite.name}: ended with status {process.returncode}", flush=True)
        return Summary(suite.name, 0, 1)
    return Summary(suite.name, found.passed, found.failed, found.not_run)


def chosen(names: list[str], is_quick: bool) -> list[Suite]:
    """The suites of these names, which may be the first word of several; or all, or all that are quick."""
    return [suite for suite in SUITES
            if (suite.name in names or suite.name.split()[0] in names if names else suite.is_quick or not is_quick)]


def main(words: list[str]) -> int:
    parser = argparse.ArgumentParser(prog="tests/run all", description=__doc__,
                                     formatter_class=argparse.RawDescriptionHelpFormatter,
                                     epilog="Suites (* quick): " + ", ".join(
                                         suite.name + "*" * suite.is_quick for suite in SUITES))
    parser.add_argument("--quick", action="store_true")
    parser.add_argument("suites", nargs="*", metavar="SUITE")
    given = parser.parse_args(words)
    suites = chosen(given.suites, given.quick)
    if not suites:
        parser.error(f"no such suite: {' '.join(given.suites)}")
    with contextlib.suppress(NotRun):
        if is_stale(built()):
            print(f"note: {built()} is older than its sources: make build")
    lines, sums = [], [0, 0, 0]
    for suite in suites:
        begun = time.monotonic()
        found = run(suite)
        lines.append(f"{found} ({time.monotonic() - begun:.0f} s)")
        sums = [total + count for total, count in zip(sums, (found.passed, found.failed, found.not_run))]
    print("== all", *lines, sep="\n")
    total = Summary("all", *sums)
    print(total)
    return total.status or int(total.passed == 0)
