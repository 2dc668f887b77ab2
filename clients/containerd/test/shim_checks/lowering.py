"""Containers whose modules are lowered, because their annotation asks for it."""
from __future__ import annotations

import time

from checks.lowered import ANNOTATION
from checks.machine import Ended, until

from .base import WithDaemon


class Lowering(WithDaemon):
    """By the command feulgama, beside the shim."""

    images = ("double", "bulk", "vector", "roots")

    def lowered(self, image: str, value: str = "true", name: str = "") -> Ended:
        """What becomes of a container with the annotation."""
        return self.daemon.run(image, options=[f"--annotation={ANNOTATION}={value}"], name=name)

    def test_modules(self) -> None:
        """modules with doubles and with bulk memory are refused, and run with the annotation, which the log says"""
        for name, status, replaced in (("double", 4, "1 f64.add, 2 f64.const, 1 i32.trunc_f64_s"),
                                       ("bulk", 9, "1 memory.fill")):
            refused = self.daemon.run(name)
            self.wrote(refused, 1, "")
            self.assertIn("refused 7 BadModule", refused.err)
            self.assertIn("feulgama lower", refused.err)
            own = f"lowered-{name}"
            self.wrote(self.lowered(name, name=own), status, "")
            log = (self.daemon.at / "log").read_text()
            self.assertIn(f"the module of {own} was lowered: {replaced}", log)
            self.nothing_left(own)

    def test_what_cannot_be_lowered(self) -> None:
        """a module with vectors is refused with the reason, and a value that the annotation cannot have, too"""
        ended = self.lowered("vector", name="with-vectors")
        self.wrote(ended, 1, "")
        why = "create: the module cannot be lowered: offset 91, .*SIMD are not lowered: invalid argument"
        self.assertRegex(ended.err, why)
        self.nothing_left("with-vectors")
        ended = self.lowered("double", "yes")
        self.wrote(ended, 1, "")
        self.assertIn("and it can be true or false: invalid argument", ended.err)

    def test_large(self) -> None:
        """a module that becomes too large is refused in bounded time, and nothing of the command is left"""
        began = time.monotonic()
        ended = self.lowered("roots", name="with-roots")
        self.wrote(ended, 1, "")
        self.assertIn("the lowered module has more than 262144 bytes", ended.err)
        self.assertLess(time.monotonic() - began, 120.0)
        self.nothing_left("with-roots")

    def test_debugger(self) -> None:
        """a debugger sees the names of the module of the image"""
        name = self.daemon.begin("double", options=[f"--annotation={ANNOTATION}=true"])
        until("it has ended", lambda: self.daemon.status(name) == "stopped")
        ended = self.daemon.attach("reverse-stepi\n", name)
        self.assertRegex(ended.out, r"ended after \d+ turns: exit, exit 4\n.*\nturn \d+ at 1:4 <_start>", ended.err)
        self.assertEqual(self.daemon.remove(name), 4)
