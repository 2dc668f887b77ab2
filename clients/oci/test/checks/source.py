"""The source of feulgama-oci: its layout, its own tests, and the file that is built."""
from __future__ import annotations

import hashlib
import os
import shutil
import subprocess
import unittest
from pathlib import Path
from typing import ClassVar

from .host import Setting
from .machine import Ended, command, missing, must

CLIENT = Path(__file__).resolve().parents[2]
PACKAGES = "feulgama/..."
TOOLS = ("go", "gofmt", "/usr/share/gocode/src/golang.org/x/sys/unix")


class Source(unittest.TestCase):
    """Checks without a container."""

    setting: ClassVar[Setting]

    def go(self, *words: str, race: bool = False) -> Ended:
        """Runs go on the source of this repository, with Debian's libraries only."""
        environment = {
            **os.environ, "GO111MODULE": "off", "GOPROXY": "off", "GOFLAGS": "", "GOPATH": f"/usr/share/gocode:{CLIENT}",
            "CGO_ENABLED": "1" if race else "0",
        }
        return command(["go", *words], environment, seconds=600)

    def need(self, *tools: str) -> None:
        """Ends the check as one that is not run, if a tool is missing."""
        packages = missing([*TOOLS, *tools])
        if packages:
            self.skipTest("packages are missing: " + " ".join(packages))

    def test_layout(self) -> None:
        """gofmt has nothing to change"""
        self.need()
        self.assertEqual(must(["gofmt", "-l", CLIENT / "src"]), "")

    def test_vet(self) -> None:
        """go vet finds nothing"""
        self.need("/usr/share/gocode/src/github.com/opencontainers/runtime-spec")
        ended = self.go("vet", PACKAGES)
        self.assertEqual(ended.status, 0, ended.err)

    def test_unit_tests(self) -> None:
        """the unit tests pass, and no data race is found"""
        self.need("gcc", "/usr/share/gocode/src/github.com/opencontainers/runtime-spec")
        ended = self.go("test", "-race", PACKAGES, race=True)
        self.assertEqual(ended.status, 0, ended.out + ended.err)

    def test_image_tool(self) -> None:
        """the tests of tools/image pass"""
        ended = command(["python3", CLIENT / "test" / "test_image.py"])
        self.assertEqual(ended.status, 0, ended.err)

    def test_same_bytes(self) -> None:
        """a build in another folder has the same bytes, and is static"""
        self.need("gcc")
        other = self.setting.machine.folder / "copy"
        shutil.copytree(CLIENT, other, ignore=shutil.ignore_patterns("__pycache__"))
        must([other / "build", other / "built"])
        first = other / "first"
        must([CLIENT / "build", first])
        self.assertEqual(*(hashlib.sha256(path.read_bytes()).hexdigest() for path in (first, other / "built")))
        self.assertNotIn(b"/lib64/ld-linux", first.read_bytes()[:4096])

    def test_version(self) -> None:
        """its version is that of wasm-shim"""
        shim = must([self.setting.program, "--version"]).split()
        own = command([self.setting.runtime, "--version"]).out.splitlines()[0].split()
        self.assertEqual((shim[0], own[:2], own[2]), ("wasm-shim", ["feulgama-oci", "version"], shim[1]))

    def test_build_help(self) -> None:
        """the build says how it is used, and refuses options that it does not know"""
        self.assertIn("clients/oci/build", must([CLIENT / "build", "--help"]))
        ended = subprocess.run([CLIENT / "build", "--strange"], capture_output=True)
        self.assertEqual(ended.returncode, 2)
