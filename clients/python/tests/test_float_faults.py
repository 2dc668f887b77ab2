"""Faults that are planted in the functions for floats and in the tool: each has to be found by a test."""
from __future__ import annotations

import shutil
import subprocess
import sys
import tempfile
import unittest
from collections.abc import Iterator
from contextlib import contextmanager
from pathlib import Path

import pytest

from tests.support import CLIENT, TOP
from tests.test_float_rounds import COMPILER, FEW, FLOATS, NEEDED, built

# The seconds after which what a fault has made hangs, on a machine that is as busy as it may be.
HANGS = 1800

# The file of sdk/c/floats, a text that is there once, and what takes its place.
IN_FUNCTIONS = (
    ("floats.h", "+ (m >> GUARD & 1)) >> GUARD", "+ 1) >> GUARD"),
    ("floats.h", "m >> count | (m << (WIDTH - count) != 0)", "m >> count"),
    ("floats.h", "return sign | INFINITY;", "return sign | (INFINITY - 1);"),
    ("floats.h", "word count = 1 - e;", "word count = -e;"),
    ("floats.h", "a << 1 > INFINITY << 1", "a << 1 >= INFINITY << 1"),
    ("add.c", "distance > FRACTION_SIZE + 2", "distance > FRACTION_SIZE"),
    ("add.c", "return difference << 1 ? difference : 0;", "return difference;"),
    ("add.c", "if (m == 0) return 0;", "if (m == 0) return front & SIGN;"),
    ("add.c", "m = m >> 1 | (m & 1);", "m >>= 1;"),
    ("add.c", "if (e < zeros)", "if (e + 1 < zeros)"),
    ("add.c", "return (a ^ b) == SIGN ? CANONICAL : a;", "return a;"),
    ("add.c", "== INFINITY) return front + HIDDEN;", "== INFINITY) return front + HIDDEN + 1;"),
    ("multiply.c", "((middle | low) << 32 != 0)", "(middle << 32 != 0)"),
    ("multiply.c", "return zero ? CANONICAL : sign | INFINITY;", "return sign | INFINITY;"),
    ("multiply.c", "return b | QUIET;", "return b;"),
    ("divide.c", "(first << 30) + second + rest / n", "(first << 30) + second"),
    ("divide.c", "(rest % n != 0)", "0"),
    ("divide.c", "if (a << 1 == b << 1) return CANONICAL;", ""),
    ("root.c", "s -= ((n << 46) - s * s) >> 63;", ""),
    ("root.c", "s -= s * s > n;", ""),
    ("root.c", "if (a << 1 == 0 || a == INFINITY)", "if (a == 0 || a == INFINITY)"),
    ("round.c", "+ (behind >> 1) + is_odd)", "+ (behind >> 1) + 1)"),
    ("round.c", "is_away && a << 1 ?", "is_away ?"),
    ("compare.c", "((number)a < (number)b) & !are_zeros(a, b)", "(number)a < (number)b"),
    ("compare.c", "a == b ? !is_nan(a) :", "a == b ? 1 :"),
    ("compare.c", "return ordered(a) < ordered(b) ? b : a;", "return is_less(a, b) ? b : a;"),
    ("truncate.c", "*found <= ((number)a", "*found < ((number)a"),
    ("truncate.c", "if (is_nan(a)) return 0;", ""),
    ("convert.c", "m >> 1 | (m & 1)", "m >> 1"),
    ("convert.c", "(m << 42 != 0)", "0"),
    ("convert.c", "exponent = 1 - shift;", "exponent = -shift;"),
    ("signs.c", "(b & SIGN)", "((a ^ b) & SIGN)"),
)
# The file of feulgama/lowering, the same two texts, and the test that finds it.
IN_TOOL = (
    ("floats.py", '0x2B: ("f64.load", 0x29)', '0x2B: ("f64.load", 0x28)', "test_floats.py::Places::test_everywhere"),
    ("floats.py", '"min", "max"', '"max", "min"', "test_floats.py::Operations::test_two_operands"),
    ("floats.py", '"convert_i32_s", "convert_i32_u"', '"convert_i32_u", "convert_i32_s"', "test_float_suite.py"),
    ("floats.py", '("f32_s", "f32_u",', '("f32_u", "f32_s",', "test_float_suite.py"),
    ("floats.py", '"little", signed=True)', '"big", signed=True)', "test_floats.py::Places::test_everywhere"),
    ("floats.py", "F32: op.I32, F64: op.I64}", "F32: op.I64, F64: op.I64}", "test_floats.py::Places::test_everywhere"),
    ("floats.py", 'NOP = b"\\x01"', 'NOP = b"\\x1a"', "test_floats.py::Places::test_everywhere"),
    ("floats.py", '**op.words(4, "i64"', '**op.words(4, "i32"', "test_floats.py::Operations::test_truncations"),
    ("apart.py", "return self._kept.get(self._lowered(kind), kind) == kind", "return True",
     "test_floats.py::Places::test_types_that_fall_together"),
    ("apart.py", "while encoded(params, results + bytes([op.I32]) * extra) in", "while extra < 0 and b'' in",
     "test_floats.py::Places::test_a_type_that_is_taken"),
    ("apart.py", "w.DROP * extra", "w.DROP * 0", "test_floats.py::Places::test_types_that_fall_together"),
    ("body.py", "self._note_type(block_type(reader), bytes([opcode]))", "block_type(reader)",
     "test_floats.py::Places::test_everywhere"),
    ("lower.py", "without_floats(bytes([kind])) + bytes([mutable])", "bytes([kind, mutable])",
     "test_floats.py::Places::test_everywhere"),
    ("constants.py", "floats.F32: 32", "floats.F32: 64", "test_floats.py::Places::test_everywhere"),
)


@contextmanager
def planted(file: Path, before: str, after: str) -> Iterator[None]:
    """A file with a fault."""
    text = file.read_text()
    assert text.count(before) == 1, (file.name, before)
    file.write_text(text.replace(before, after))
    yield
    file.write_text(text)


@pytest.mark.slow
class Planted(unittest.TestCase):
    def setUp(self) -> None:
        self.folder = Path(self.enterContext(tempfile.TemporaryDirectory()))

    @unittest.skipIf(COMPILER is None, f"no compiler of C is there: {NEEDED}")
    def test_in_functions(self) -> None:
        """The quick rounds find each of them, and none in what is as it was."""
        sources = Path(shutil.copytree(FLOATS, self.folder / "floats"))

        def ends() -> int:
            words = [str(built(self.folder, sources)), "rounds", str(FEW), "3"]
            return subprocess.run(words, capture_output=True, check=False, timeout=HANGS).returncode

        self.assertEqual(ends(), 0)
        for name, before, after in IN_FUNCTIONS:
            with self.subTest(name, fault=after), planted(sources / name, before, after):
                self.assertEqual(ends(), 1)

    def test_in_tool(self) -> None:
        """The test that is named finds each of them, and none in what is as it was."""
        client = self.folder / "clients/python"
        for name in ("feulgama", "tests", "bench", "pyproject.toml"):
            source, to = CLIENT / name, client / name
            to.parent.mkdir(parents=True, exist_ok=True)
            shutil.copytree(source, to) if source.is_dir() else shutil.copy(source, to)
        for name in ("examples", "tests", "sdk"):
            (self.folder / name).symlink_to(TOP / name)

        def ends(test: str) -> int:
            words = [sys.executable, "-B", "-m", "pytest", "-qx", "-p", "no:cacheprovider", f"tests/{test}"]
            return subprocess.run(words, cwd=client, capture_output=True, check=False, timeout=HANGS).returncode

        for test in {test for *_, test in IN_TOOL}:
            self.assertEqual(ends(test), 0, test)
        for name, before, after, test in IN_TOOL:
            with self.subTest(name, fault=after), planted(client / "feulgama/lowering" / name, before, after):
                self.assertEqual(ends(test), 1)
