"""The package: a wheel that a fresh environment takes without a network, where the program is looked for, versions."""
from __future__ import annotations

import importlib.util
import io
import os
import shutil
import subprocess
import sys
import tempfile
import unittest
from contextlib import redirect_stdout
from pathlib import Path
from unittest import mock

import pytest

import feulgama
from feulgama import program as programs
from feulgama.cli import main
from tests.support import CLIENT, SHIM
from tests.written_modules import FILL, Written, operands

NEEDED = [name for name in ("setuptools", "wheel", "pip", "ensurepip") if importlib.util.find_spec(name) is None]
EXAMPLES = CLIENT / "examples"


def ran(*words: str | Path, **more: str) -> str:
    """What a command writes."""
    return subprocess.run(words, check=True, capture_output=True, text=True, env={**os.environ, **more},
                          stdin=subprocess.DEVNULL).stdout


@unittest.skipIf(NEEDED, f"this Python has no {', '.join(NEEDED)}: apt-get install python3-venv python3-setuptools "
                         "python3-wheel python3-pip")
class Wheel(unittest.TestCase):
    """A wheel is built of a copy of the sources, and installed into a fresh environment, both without an index."""
    folder: Path
    bin: Path

    @classmethod
    def setUpClass(cls) -> None:
        cls.folder = Path(cls.enterClassContext(tempfile.TemporaryDirectory()))
        sources = cls.folder / "sources"
        shutil.copytree(CLIENT, sources, ignore=shutil.ignore_patterns("build", "*.egg-info", "__pycache__"))
        cls.pip(Path(sys.executable), "wheel", "--no-build-isolation", "--no-deps", "-w", str(cls.folder), str(sources))
        ran(sys.executable, "-m", "venv", cls.folder / "fresh")
        cls.bin = cls.folder / "fresh/bin"
        wheel, = cls.folder.glob("feulgama-0.2.0-*.whl")
        cls.pip(cls.bin / "python", "install", str(wheel))

    @classmethod
    def pip(cls, python: Path, command: str, *words: str) -> None:
        ran(python, "-m", "pip", "--disable-pip-version-check", command, "--no-index", "-q", *words)

    def test_command(self) -> None:
        self.assertEqual(ran(self.bin / "feulgama", "--shim", SHIM, "--version").splitlines()[0], "feulgama 0.2.0")
        self.assertIn("usage: feulgama", ran(self.bin / "feulgama", "--help"))

    def test_lowering(self) -> None:
        """The functions that it puts into modules are in the wheel."""
        file = self.folder / "fill.wasm"
        file.write_bytes(Written(operands(0, 7, 9) + FILL).bytes())
        self.assertEqual(ran(self.bin / "feulgama", "lower", "--list", file), "1 memory.fill\n")

    def test_library(self) -> None:
        """It is imported from the environment, with its types, and runs a module."""
        script = "import feulgama, sys; from pathlib import Path; print(feulgama.__file__, feulgama.__version__); " \
                 "print(Path(feulgama.__file__).with_name('py.typed').is_file()); " \
                 "print(feulgama.Shim(sys.argv[1]).run(Path(sys.argv[2]).read_bytes()).stdout)"
        told = ran(self.bin / "python", "-I", "-c", script, SHIM, EXAMPLES / "words.wasm").splitlines()
        self.assertTrue(told[0].startswith(str(self.folder)) and told[0].endswith(" 0.2.0"), told[0])
        self.assertEqual(told[1:], ["True", r"b'35\n'"])

    def test_debugger_with_the_program_on_path(self) -> None:
        """`feulgama debug` finds `wasm-shim` on PATH."""
        found = self.folder / "path"
        found.mkdir(exist_ok=True)
        words = f"{sys.executable} {SHIM}" if SHIM.endswith(".py") else SHIM
        (found / "wasm-shim").write_text(f'#!/bin/sh\nexec {words} "$@"\n')
        (found / "wasm-shim").chmod(0o755)
        run = subprocess.run([self.bin / "feulgama", "debug", "words.wasm"], input="goto 20\ncontinue\n", text=True,
                             capture_output=True, check=True, cwd=EXAMPLES,
                             env={"PATH": f"{found}:/usr/bin:/bin", "HOME": str(self.folder)})
        self.assertEqual(run.stdout.splitlines()[-1], "ended after 8069 turns: exit, exit 9", run.stderr)


class Program(unittest.TestCase):
    """Where the program is looked for: an argument, the environment, PATH, the clone."""

    def setUp(self) -> None:
        self.folder = Path(self.enterContext(tempfile.TemporaryDirectory()))
        self.enterContext(mock.patch.dict(os.environ, {"PATH": str(self.folder / "bin")}))
        os.environ.pop("FEULGAMA_SHIM", None)
        self.enterContext(mock.patch.object(programs, "HERE", self.folder / "clone/clients/python/feulgama/program.py"))
        self.built = self.made("clone/crates/wasm_shim/out/wasm_shim")

    def made(self, name: str) -> Path:
        path = self.folder / name
        path.parent.mkdir(parents=True, exist_ok=True)
        path.write_text("#!/bin/sh\n")
        path.chmod(0o755)
        return path

    def test_order(self) -> None:
        self.assertEqual(programs.program(), [str(self.built)])
        on_path = self.made("bin/wasm-shim")
        self.assertEqual(programs.program(), [str(on_path)])
        other = self.made("bin/other")
        os.environ["FEULGAMA_SHIM"] = "other"
        self.assertEqual(programs.program(), [str(other)])
        self.assertEqual(programs.program(self.made("third.py")), [sys.executable, str(self.folder / "third.py")])

    def test_a_program_that_is_another(self) -> None:
        """What it writes is no module."""
        other = self.made("bin/other")
        other.write_text("#!/bin/sh\necho hello\n")
        self.assertRaisesRegex(programs.NoAssemblyError, "bin/other asm wrote what is no module", programs.assemble,
                               b"(module)", programs.program(other))

    def test_nowhere(self) -> None:
        """The error says where it was looked for."""
        self.built.unlink()
        with self.assertRaises(feulgama.NoShimError) as found:
            programs.program()
        for word in ("FEULGAMA_SHIM", "wasm-shim on PATH", str(self.built)):
            self.assertIn(word, str(found.exception))
        with mock.patch.object(programs, "HERE", self.folder / "lib/feulgama/program.py"):
            self.assertRaisesRegex(feulgama.NoShimError, "not in a clone", programs.program)
        self.assertRaisesRegex(feulgama.NoShimError, "no program none, which the argument names", programs.program, "none")
        os.environ["FEULGAMA_SHIM"] = "/none"
        self.assertRaisesRegex(feulgama.NoShimError, "no program /none, which FEULGAMA_SHIM names", programs.program)


class Versions(unittest.TestCase):
    def told(self, *words: str) -> list[str]:
        out = io.StringIO()
        with redirect_stdout(out):
            self.assertEqual(main(words), 0)
        return out.getvalue().splitlines()

    @pytest.mark.program
    def test_of_the_program(self) -> None:
        first, second = self.told("--shim", SHIM, "--version")
        self.assertEqual(first, f"feulgama {feulgama.__version__}")
        self.assertRegex(second, r"^wasm-shim \d+\.\d+\.\d+ \(protocol \d+\) \(/.*\)$")

    def test_without_a_program(self) -> None:
        first, second = self.told("--shim", "/none", "--version")
        self.assertEqual((first, second[:11]), ("feulgama 0.2.0", "wasm-shim: "))

    def test_a_command_is_needed(self) -> None:
        with self.assertRaises(SystemExit) as found, mock.patch("sys.stderr", io.StringIO()) as said:
            main([])
        self.assertEqual(found.exception.code, 2)
        self.assertIn("a command is needed: debug, attach, timeline, dap or lower", said.getvalue())
