"""Checks that are other programs: of types, style and form, and the tests that need no built program."""
from __future__ import annotations

import ast
import os
import re
import subprocess
import sys
import tempfile
from collections.abc import Iterator, Sequence
from pathlib import Path

from suite.checks.tree import Tree

PACKAGES = ".ci/packages"
CLIENT = "clients/python"
# Tests with container hosts. The later ones use modules of the first.
CONTAINERS = ("clients/oci/test", "clients/containerd/test", "packaging/test")
# Neither leaves a file in the repository.
MYPY = (sys.executable, "-m", "mypy", "--cache-dir", "/dev/null")
PYTEST = (sys.executable, "-B", "-m", "pytest", "-q", "-p", "no:cacheprovider")
# What a test calls that looks at a clock or waits for it, and the shim that goes by one. A machine that does much else may be
# late, so a test that has these is marked, and `make check` runs it.
CLOCK = re.compile(r"\b(monotonic|perf_counter|asyncio\.timeout|threading\.Timer|time\.sleep|call_later)\(")
SIMULATED = "simulated_shim"
ALL_MARKED = re.compile(r"^pytestmark = pytest\.mark\.clock$", re.MULTILINE)
# The same in Go, where such a test calls byTheClock, which passes over it if the tests are to be short.
GO_CLOCK = re.compile(r"\btime\.(?:Now|Since|Sleep|After)\(")
GO_TEST = re.compile(r"^func (?P<name>(?:Test|Fuzz)\w*)\(.*?^}", re.MULTILINE | re.DOTALL)
# How much of a program's output is shown if it fails.
SHOWN = 40
Result = tuple[int, list[str]]


def packages(tree: Tree) -> list[str]:
    """The Debian packages that the checks need."""
    lines = [line.partition("#")[0].strip() for line in tree.text(PACKAGES).splitlines()]
    return [line for line in lines if line]


def missing(tree: Tree) -> list[str]:
    """Those that are not installed."""
    wanted = packages(tree)
    try:
        run = subprocess.run(["dpkg-query", "-W", "-f", "${Package} ${db:Status-Status}\n", *wanted], text=True,
                             stdout=subprocess.PIPE, stderr=subprocess.DEVNULL, check=False)
    except OSError:
        return wanted
    there = {line.split()[0] for line in run.stdout.splitlines() if line.endswith(" installed")}
    return [name for name in wanted if name not in there]


def run(name: str, command: Sequence[str], folder: Path, **more: str) -> list[str]:
    """Runs a program. Nothing if it ended well, or else the end of what it printed."""
    given = {**os.environ, "PYTHONDONTWRITEBYTECODE": "1", **more}
    done = subprocess.run(command, cwd=folder, env=given, stdin=subprocess.DEVNULL, stdout=subprocess.PIPE,
                          stderr=subprocess.STDOUT, text=True, errors="replace", check=False)
    if done.returncode == 0:
        return []
    shown = done.stdout.splitlines()[-SHOWN:]
    return ["\n  ".join([f"{name}: ended with status {done.returncode}: {' '.join(command[:5])} ..", *shown])]


def python_files(tree: Tree) -> list[str]:
    """All files of Python, those without an extension too."""
    return [name for name in tree.files
            if name.endswith(".py") or "." not in Path(name).name and tree.bytes(name).startswith((b"#!/usr/bin/env python3",
                                                                                                   b"#!/usr/bin/python3"))]


def check_flake8(tree: Tree) -> Result:
    names = python_files(tree)
    return len(names), run("flake8", [sys.executable, "-m", "flake8", *names], tree.root)


def check_mypy(tree: Tree) -> Result:
    """Types of tests/, tools/ and the tests with container hosts, by setup.cfg."""
    names = tree.matching("tests/*.py")
    words = ["--config-file", str(tree.root / "setup.cfg"), "--scripts-are-modules"]
    roots = sorted({name.split("/")[1] for name in names})
    tools = [str(tree.root / name) for name in python_files(tree) if name.startswith("tools/")]
    faults = run("mypy", [*MYPY, *words, *roots, *tools], tree.root / "tests")
    count = len(names) + len(tools)
    for folder in CONTAINERS:
        inside = [name.removeprefix(f"{folder}/") for name in python_files(tree) if name.startswith(f"{folder}/")]
        roots = sorted({name.split("/")[0] for name in inside})
        count += len(inside)
        if roots:
            faults += run(f"mypy of {folder}", [*MYPY, *words, *roots], tree.root / folder,
                          MYPYPATH=str(tree.root / CONTAINERS[0]))
    return count, faults


def check_client_types(tree: Tree) -> Result:
    """Types of the client for Python, by its own configuration."""
    folder = tree.root / CLIENT
    parts = [part for part in ("feulgama", "src", "tests", "bench") if (folder / part).is_dir()]
    files = tree.matching(f"{CLIENT}/*.py")
    return len(files), run("mypy", [*MYPY, *parts], folder)


def is_marked(node: ast.FunctionDef | ast.AsyncFunctionDef | ast.ClassDef) -> bool:
    """Whether a test, or a class of tests, is marked as one that goes by the clock."""
    return any("mark.clock" in ast.unparse(decorator) for decorator in node.decorator_list)


def unmarked_of(inside: ast.Module | ast.ClassDef, is_simulated: bool) -> Iterator[str]:
    """The tests of a module or a class that go by the clock, by themselves or by what their class has for all of them."""
    functions = [node for node in inside.body if isinstance(node, (ast.FunctionDef, ast.AsyncFunctionDef))]
    late = {node.name for node in functions if is_simulated or CLOCK.search(ast.unparse(node))}
    shares = isinstance(inside, ast.ClassDef) and any(not name.startswith("test") for name in late) and not is_simulated
    for node in functions:
        if node.name.startswith("test") and (shares or node.name in late) and not is_marked(node):
            yield node.name


def unmarked_tests(name: str, text: str) -> list[str]:
    """The tests of a file that go by the clock and are not marked so, each as pytest names it."""
    tree = ast.parse(text)
    if ALL_MARKED.search(text):
        return []
    owners: list[tuple[str, ast.Module | ast.ClassDef]] = [("", tree)]
    owners += [(f"{node.name}::", node) for node in tree.body if isinstance(node, ast.ClassDef) and not is_marked(node)]
    return [f"{name}::{owner}{test}" for owner, inside in owners for test in unmarked_of(inside, SIMULATED in text)]


def check_client_tests(tree: Tree) -> Result:
    """The tests of the client for Python over the second reading, but for those that go by the clock: these are marked."""
    folder = tree.root / CLIENT
    files = tree.matching(f"{CLIENT}/tests/test_*.py")
    faults = [f"{test}: goes by the clock, and is not marked by pytest.mark.clock" for name in files
              for test in unmarked_tests(name, tree.text(name))]
    words = [*PYTEST, "-m", "not clock", *(name.removeprefix(f"{CLIENT}/") for name in files)]
    faults += run("tests of clients/python", words, folder, FEULGAMA_SHIM=str(folder / "tests/reference_shim.py"))
    return len(files), faults


def check_own_tests(tree: Tree) -> Result:
    """The tests of tests/ that need no built program."""
    count = len(tree.matching("tests/test_*.py"))
    return count, run("tests", [*PYTEST, "-m", "not program", "tests"], tree.root, PYTHONPATH=str(tree.root / "tests"))


def check_tools(tree: Tree) -> Result:
    """The tools that look at the sources alone; `tools/calls` also at the pages that it has made of them."""
    faults = [fault for command in (["tools/wrap", "--say"], ["tools/reached"], ["tools/calls", "--check"])
              for fault in run(" ".join(command), command, tree.root)]
    scripts = [name for name in tree.files if tree.bytes(name).startswith((b"#!/usr/bin/env bash", b"#!/bin/sh"))]
    for name in scripts:
        faults += run(f"bash -n {name}", ["bash", "-n", name], tree.root)
    return 3 + len(scripts), faults


def go_folders(tree: Tree) -> list[str]:
    """The folders that have Go's packages below them: a client each."""
    return sorted({"/".join(name.split("/")[:2]) for name in tree.matching("*.go")})


def go_run(tree: Tree, folder: str, *words: str) -> list[str]:
    """Runs go on the packages of a client, over Debian's libraries and the packages of the other clients only."""
    path = ":".join(["/usr/share/gocode", *(str(tree.root / other) for other in go_folders(tree))])
    with tempfile.TemporaryDirectory(prefix="go-cache-") as made:
        cache = os.environ.get("GOCACHE") or (str(Path.home() / ".cache/go-build") if os.environ.get("HOME") else made)
        return run(f"go {words[0]} of {folder}", ["go", *words, "./..."], tree.root / folder, GO111MODULE="off", GOPROXY="off",
                   GOFLAGS="", CGO_ENABLED="0", GOPATH=path, GOCACHE=cache)


def check_go(tree: Tree) -> Result:
    """Form and faults of Go's sources, by gofmt and go vet."""
    names = tree.matching("*.go")
    faults = []
    done = subprocess.run(["gofmt", "-l", *names], cwd=tree.root, stdout=subprocess.PIPE, stderr=subprocess.STDOUT, text=True,
                          check=False) if names else None
    if done and (done.returncode or done.stdout):
        faults.append(f"gofmt -l: {' '.join(done.stdout.split())}: run gofmt -w on these")
    return len(names), faults + [fault for folder in go_folders(tree) for fault in go_run(tree, folder, "vet")]


def unmarked_go_tests(tree: Tree) -> Iterator[str]:
    """The tests in Go that go by the clock and do not say so, a sentence each."""
    for name in tree.matching("*_test.go"):
        for test in GO_TEST.finditer(tree.text(name)):
            if GO_CLOCK.search(test.group()) and "byTheClock(t)" not in test.group():
                yield f"{name}: {test['name']} goes by the clock, and does not call byTheClock(t)"


def check_oci_tests(tree: Tree) -> Result:
    """The tests of clients in Go that need no container host and do not go by the clock, and those of tools/image."""
    images = tree.matching("clients/oci/test/test_*.py")
    faults = list(unmarked_go_tests(tree)) + [fault for folder in go_folders(tree)
                                              for fault in go_run(tree, folder, "test", "-short", "-count=1")]
    if images:
        faults += run("tests of tools/image", [*PYTEST, *images], tree.root)
    return len(tree.matching("*_test.go")) + len(images), faults
