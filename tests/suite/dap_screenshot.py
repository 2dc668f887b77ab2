"""Makes pictures of clients/python/docs: Emacs' dap-mode with the debug adapter of clients/python, stopped at a breakpoint
of a C program (session.png), after a write to a variable (watch.png), and at a trap (trap.png), with its variables and its
stack. Look at the pictures before they are committed.

    tests/run dap-screenshot [--folder FOLDER] [session|watch|trap ..]

Needs Debian's xvfb, xauth, emacs-lucid (or emacs-gtk), elpa-dap-mode, python3-pyelftools, fonts-dejavu-core, imagemagick and
pngquant, and the built program (make build); PROGRAM in the environment names another one.
"""
from __future__ import annotations

import argparse
import os
import subprocess
import sys
import tempfile
from pathlib import Path

from suite.places import CLIENT, TOP, built, need

SCRIPT = TOP / "tests/dap/screenshot.el"
PICTURES = ("session", "watch", "trap")
SECONDS = 300


def emacs(home: Path, picture: str) -> bytes:
    """Runs Emacs, which writes a picture as raw.png. What it says."""
    given = {"HOME": str(home), "FEULGAMA": str(CLIENT / "bin/feulgama"), "EXAMPLES": str(CLIENT / "examples"),
             "PICTURE": picture, "RAW": str(home / "raw.png"), "FEULGAMA_SHIM": str(built())}
    # Without -noreset Emacs could not connect in three runs of four; with -Q it did not end.
    command = ["xvfb-run", "-a", "-s", "-screen 0 1200x800x24 -noreset", "timeout", str(SECONDS),
               "emacs", "-l", "package", "-f", "package-initialize", "-l", str(SCRIPT)]
    return subprocess.run(command, env={**os.environ, **given}, stdin=subprocess.DEVNULL, stdout=subprocess.PIPE,
                          stderr=subprocess.STDOUT, check=False).stdout


def make(name: str, folder: Path) -> bool:
    """Makes a picture; whether that went well."""
    with tempfile.TemporaryDirectory() as home:
        raw, said = Path(home) / "raw.png", emacs(Path(home), name)
        if not raw.is_file() or not raw.stat().st_size:
            print(*said.decode("utf-8", "replace").splitlines()[-20:], sep="\n", file=sys.stderr)
            return False
        picture = folder / f"{name}.png"
        subprocess.run(["pngquant", "--force", "--strip", "--output", picture, "64", raw], check=True)
    print(f"ok: {picture.stat().st_size} bytes in {picture.name}")
    return True


def main(words: list[str]) -> int:
    parser = argparse.ArgumentParser(prog="tests/run dap-screenshot", description=__doc__,
                                     formatter_class=argparse.RawDescriptionHelpFormatter)
    parser.add_argument("pictures", nargs="*", choices=[*PICTURES, []], metavar="session|watch|trap",
                        help="all of them without one")
    parser.add_argument("--folder", type=Path, default=CLIENT / "docs", metavar="FOLDER")
    given = parser.parse_args(words)
    need({"xvfb-run": "xvfb", "xauth": "xauth", "emacs": "emacs-lucid elpa-dap-mode fonts-dejavu-core",
          "import": "imagemagick", "pngquant": "pngquant"})
    return 0 if all([make(name, given.folder.resolve()) for name in given.pictures or PICTURES]) else 1
