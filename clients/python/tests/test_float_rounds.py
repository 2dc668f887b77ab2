"""The functions for floats, compiled for this processor, beside the processor's own operations."""
from __future__ import annotations

import platform
import shutil
import subprocess
import tempfile
import unittest
from pathlib import Path

import pytest

from tests.support import TOP

FLOATS = TOP / "sdk/c/floats"
ROUNDS = Path(__file__).with_name("native") / "float_rounds.c"
COMPILER = next((name for name in ("gcc", "clang-14") if shutil.which(name)), None)
NEEDED = "apt-get install -y --no-install-recommends gcc libc6-dev"
# Quick ones, and those at length, each of which makes all operations of both formats.
FEW, MANY = 300_000, 60_000_000


def built(folder: Path, sources: Path = FLOATS) -> Path:
    """The program of float_rounds.c with the functions of a folder."""
    assert COMPILER is not None
    objects = []
    for source in sorted(sources.glob("*.c")):
        for width in ("32", "64"):
            objects.append(folder / f"{source.stem}{width}.o")
            subprocess.run([COMPILER, "-O2", "-w", f"-DF={width}", "-c", "-o", objects[-1], source], check=True)
    program = folder / "float_rounds"
    options = ["-msse4.1"] if platform.machine() == "x86_64" else []
    subprocess.run([COMPILER, "-O2", "-w", "-ffp-contract=off", "-fno-math-errno", *options, "-o", program, ROUNDS, *objects,
                    "-lm"], check=True)
    return program


@unittest.skipIf(COMPILER is None, f"no compiler of C is there: {NEEDED}")
class Native(unittest.TestCase):
    def setUp(self) -> None:
        self.program = built(Path(self.enterContext(tempfile.TemporaryDirectory())))

    def right(self, *words: str) -> None:
        run = subprocess.run([self.program, *words], capture_output=True, text=True, check=False)
        self.assertEqual((run.stdout, run.returncode), ("0 wrong\n", 0))

    def test_rounds(self) -> None:
        """Operands near ties, limits, subnormal numbers, NaNs and equal ones."""
        self.right("rounds", str(FEW), "3")

    @pytest.mark.slow
    def test_many_rounds(self) -> None:
        self.right("rounds", str(MANY), "4")

    @pytest.mark.slow
    def test_every_f32(self) -> None:
        """Root, rounding, and conversions of each of the 2^32 encodings, and of integers and doubles made of them."""
        self.right("all")
