"""Programs as toolchains make them without any word about floats: lowered, they do what they do in node."""
from __future__ import annotations

import os
import shutil
import tempfile
import unittest
from pathlib import Path

import pytest

import feulgama
from feulgama.lowering import lower
from tests import float_builds as builds
from tests import float_programs as f
from tests.small_programs import ALL
from tests.small_programs import PROGRAMS as WITHOUT
from tests.support import SHIM
from tests.test_toolchains import (HAS_22, HAS_CPP, HAS_NODE, HAS_RUST, MEMORY, MISSING, NEEDED, NEEDED_22, NEEDED_CPP,
                                   NEEDED_RUST)

ARGS, ENV = ["module", "one", "two"], {"KEY": "value"}
LUA = os.environ.get("LUA", "")
NEEDED_LUA = "LUA names the folder that `apt-get source lua5.4` makes, with a line deb-src in apt's sources"
HAS_EMSCRIPTEN = shutil.which("emcc") is not None
NEEDED_EMSCRIPTEN = "apt-get install -y --no-install-recommends emscripten"


@pytest.mark.program
class Compared(unittest.TestCase):
    def setUp(self) -> None:
        self.folder = Path(self.enterContext(tempfile.TemporaryDirectory()))
        self.shim = self.enterContext(feulgama.Shim(SHIM))

    def built(self, text: str, *command: str) -> bytes:
        """The module that a compiler makes of a text of C."""
        return builds.built(self.folder, text, ".c", *command)

    def says(self, data: bytes, stdout: str, status: int, stderr: str = "", node_says: bool = True) -> None:
        """Compares what a lowered module does with what is expected, and that with what node does with the original."""
        ran = self.shim.run(lower(data).data, ARGS, ENV, MEMORY)
        self.assertEqual((ran.stdout.decode(), ran.stderr.decode(), ran.exit.code), (stdout, stderr, status))
        if HAS_NODE and node_says:
            self.assertEqual(f.in_node(data, ARGS, ENV), (stdout, stderr, status))

    def all_of_c(self, *command: str, has_sleep: bool = True) -> None:
        """The small programs. Of the time node says what it is."""
        for program in (*WITHOUT, *f.PROGRAMS):
            if program.name == "time" and not has_sleep:
                continue
            data = self.built(ALL + program.text, *command)
            self.says(data, program.stdout, program.status, program.stderr, program.name != "time")

    @unittest.skipIf(MISSING, f"{', '.join(MISSING)} not there: {NEEDED}")
    def test_c(self) -> None:
        """20 programs by the flags of wasi-libc alone."""
        self.assertEqual(len((*WITHOUT, *f.PROGRAMS)), 20)
        self.all_of_c(*builds.C)

    @unittest.skipIf(not HAS_22, f"clang-22 or its library not there: {NEEDED_22}")
    def test_c_by_clang_22(self) -> None:
        """The same with its default features."""
        self.all_of_c(*builds.C_BY_22)

    @unittest.skipIf(not HAS_EMSCRIPTEN, f"emcc not there: {NEEDED_EMSCRIPTEN}")
    def test_c_by_emscripten(self) -> None:
        """The same with its own library, in the memory that a task has without a limit in its config. Its `sleep` looks at
        the processor's time over and over, which for three seconds takes too many turns."""
        self.all_of_c(*builds.EMSCRIPTEN, has_sleep=False)

    @unittest.skipIf(not HAS_EMSCRIPTEN, f"emcc not there: {NEEDED_EMSCRIPTEN}")
    def test_a_clock_of_32_bits(self) -> None:
        """The processor's time begins at 0, and each look takes a microsecond. To sleep is to look at the beginning, and then
        until the time is over."""
        text = """int main(void) {
            long first = clock(), slept = usleep(200), then = clock();
            printf("%ld %ld %ld\\n", first, slept, then);
        }"""
        self.says(self.built(ALL + text, *builds.EMSCRIPTEN), "0 0 202\n", 0, node_says=False)

    @unittest.skipIf(not HAS_CPP, f"clang++-14 or its library not there: {NEEDED_CPP}")
    def test_cpp(self) -> None:
        """A map and streams."""
        self.says(builds.cpp(self.folder), f.CPP_SAYS, 2)

    @unittest.skipIf(not HAS_RUST, f"Debian's rustc not there: {NEEDED_RUST}")
    def test_rust(self) -> None:
        """A map with random keys, sums, formats, casts and parsing."""
        self.says(builds.rust(self.folder), f.RUST_SAYS, 0)

    @unittest.skipIf(MISSING, f"{', '.join(MISSING)} not there: {NEEDED}")
    @unittest.skipIf(not LUA, NEEDED_LUA)
    def test_lua(self) -> None:
        """The interpreter, by a script with closures and doubles."""
        self.says(builds.lua(self.folder, Path(LUA).resolve()), f.LUA_SAYS, 3)
