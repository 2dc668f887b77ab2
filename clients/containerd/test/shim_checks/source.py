"""The source of the shim: its layout, its own tests, and the file that is built."""
from __future__ import annotations

import hashlib
import shutil
import subprocess
from xml.etree import ElementTree

from checks.images import TOP
from checks.machine import command, must

from .base import Check
from .picture import PICTURES, SPACE
from .setup import CLIENT, go_environment

SOURCES = ("feulgama/lines", "feulgama/containerd/...", "feulgama/containerd-shim-feulgama-v1", "feulgama/cri-call")


class Source(Check):
    """Checks without a container."""

    def test_layout(self) -> None:
        """gofmt has nothing to change"""
        self.assertEqual(must(["gofmt", "-l", CLIENT / "src"]), "")

    def test_vet(self) -> None:
        """go vet finds nothing"""
        ended = command(["go", "vet", *SOURCES], go_environment(), seconds=600)
        self.assertEqual(ended.status, 0, ended.err)

    def test_unit_tests(self) -> None:
        """the unit tests pass, and no data race is found"""
        ended = command(["go", "test", "-race", *SOURCES], go_environment(race=True), seconds=600)
        self.assertEqual(ended.status, 0, ended.out + ended.err)

    def test_same_bytes(self) -> None:
        """a build in another folder has the same bytes, and is static"""
        other = self.setting.machine.folder / "copy"
        for name in ("containerd", "oci"):
            shutil.copytree(TOP / "clients" / name, other / name, ignore=shutil.ignore_patterns("__pycache__"))
        must([other / "containerd/build", other / "built"], seconds=600)
        first = other / "first"
        must([CLIENT / "build", first], seconds=600)
        self.assertEqual(*(hashlib.sha256(path.read_bytes()).hexdigest() for path in (first, other / "built")))
        self.assertNotIn(b"/lib64/ld-linux", first.read_bytes()[:4096])

    def test_version(self) -> None:
        """its version is that of wasm-shim"""
        shim = must([self.setting.folder / "wasm-shim", "--version"]).split()
        own = must([self.setting.folder / "containerd-shim-feulgama-v1", "--version"])
        self.assertEqual(own, f"containerd-shim-feulgama-v1 version {shim[1]}\n")

    def test_pictures(self) -> None:
        """the pictures of the page show what their commands are now, and what these wrote"""
        for name, (_, typed) in PICTURES.items():
            shown = ElementTree.parse(TOP / f"docs/{name}.svg").iter()
            text = [element.text.replace(SPACE, " ") for element in shown if element.text]
            for command_typed, lines in typed:
                self.assertIn(f"$ {command_typed}", text)
                for line in lines.splitlines():
                    self.assertIn(f"(feulgama) {line}", text)
            self.assertFalse([line for line in text if "Traceback" in line])
            self.assertIn(f"({name}.svg)", (TOP / "docs/CONTAINERS.md").read_text())

    def test_build_help(self) -> None:
        """the build says how it is used, and refuses options that it does not know"""
        self.assertIn("clients/containerd/build", must([CLIENT / "build", "--help"]))
        ended = subprocess.run([CLIENT / "build", "--strange"], capture_output=True)
        self.assertEqual(ended.returncode, 2)
