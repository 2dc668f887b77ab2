"""A session of Emacs' dap-mode, in batch mode, with the debug adapter of clients/python: a breakpoint at a line of C, the
locals, steps forward and back, a condition, a data breakpoint, the end, and a trap. What
Emacs shows has to be tests/dap/session.expected.

Needs Debian's emacs-nox, elpa-dap-mode and python3-pyelftools, and the built program.
"""
from __future__ import annotations

import os
import subprocess
from pathlib import Path

import pytest

from suite.places import CLIENT, TOP, built, need
from suite.summary import NotRun

pytestmark = pytest.mark.program
SESSION = TOP / "tests/dap/session.el"


def test_session(tmp_path: Path) -> None:
    need({"emacs": "emacs-nox elpa-dap-mode python3-pyelftools"})
    if not list(Path("/usr/share/emacs/site-lisp/elpa").glob("dap-mode-*")):
        raise NotRun("packages are missing: apt-get install -y --no-install-recommends elpa-dap-mode")
    given = {"HOME": str(tmp_path), "FEULGAMA": str(CLIENT / "bin/feulgama"), "EXAMPLES": str(CLIENT / "examples"),
             "FEULGAMA_SHIM": str(built())}
    done = subprocess.run(["emacs", "--batch", "-l", "package", "-f", "package-initialize", "-l", SESSION],
                          env={**os.environ, **given}, stdin=subprocess.DEVNULL, capture_output=True, text=True, timeout=300,
                          check=False)
    assert done.stdout == SESSION.with_suffix(".expected").read_text(), done.stderr[-2000:]
