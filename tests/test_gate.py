"""The script of the gate, with other programs in the place of those that it starts."""
from __future__ import annotations

import os
import shutil
import subprocess
from pathlib import Path

import pytest

from suite.checks.tree import TOP

# What is in the place of each program: a shell script.
PROGRAMS = {
    "make": 'echo "make $*"',
    "rt": 'echo "rt $*"; echo "9 passed, 0 failed"',
    "dpkg-query": "echo installed",
    "apt-get": 'echo "apt-get $*"',
    "id": "echo 0",
}


def gate(folder: Path, **other: str) -> subprocess.CompletedProcess[str]:
    """Runs the gate in a folder of its own."""
    (folder / ".ci").mkdir()
    shutil.copy(TOP / ".ci/run", folder / ".ci/run")
    (folder / ".ci/packages").write_text("# Two packages.\nfirst\nsecond # and a comment\n")
    programs = folder / "bin"
    programs.mkdir()
    for name, code in {**PROGRAMS, **other}.items():
        (programs / name).write_text(f"#!/bin/sh\n{code}\n")
        (programs / name).chmod(0o755)
    path = f"{programs}:{os.environ['PATH']}"
    return subprocess.run([folder / ".ci/run"], env={"PATH": path}, capture_output=True, text=True, stdin=subprocess.DEVNULL,
                          check=False)


def test_the_last_line_is_that_of_the_proofs(tmp_path: Path) -> None:
    done = gate(tmp_path)
    assert done.stdout.splitlines() == ["make check-ci", "rt ci", "9 passed, 0 failed"]
    assert done.returncode == 0


@pytest.mark.parametrize("name", ["make", "rt"])
def test_it_fails_if_either_does(name: str, tmp_path: Path) -> None:
    done = gate(tmp_path, **{name: PROGRAMS[name] + "; exit 3"})
    assert done.stdout.splitlines() == ["make check-ci", "rt ci", "9 passed, 0 failed"]
    assert done.returncode == 1


def test_what_is_missing_is_installed(tmp_path: Path) -> None:
    done = gate(tmp_path, **{"dpkg-query": '[ "$4" = first ] && echo installed'})
    lines = done.stdout.splitlines()
    assert lines[0] == "installing second"
    assert lines[1].startswith("apt-get") and lines[1].endswith(" update")
    assert lines[2].endswith(" install -y --no-install-recommends second")
    assert lines[-1] == "9 passed, 0 failed" and done.returncode == 0


def test_nothing_is_proved_if_it_cannot_be_installed(tmp_path: Path) -> None:
    done = gate(tmp_path, **{"dpkg-query": "exit 1", "apt-get": "exit 100"})
    assert done.stdout.splitlines() == ["installing first second"]
    assert done.returncode != 0


def test_another_user_is_told_what_is_missing(tmp_path: Path) -> None:
    done = gate(tmp_path, **{"dpkg-query": "exit 1", "id": "echo 1000"})
    assert done.stdout == "" and done.returncode == 1
    assert "apt-get install -y --no-install-recommends first second" in done.stderr
