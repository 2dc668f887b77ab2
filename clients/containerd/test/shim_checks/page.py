"""The commands of Part 2 of docs/CONTAINERS.md, run as they are written there."""
from __future__ import annotations

import os
import re
import shutil
from pathlib import Path
from typing import ClassVar

from checks.images import TOP
from checks.machine import missing
from checks.page import Shell, commands

from .base import Check
from .daemon import Daemon


class Page(Check):
    """The page's commands, with a containerd of the tests in the place of the machine's."""

    daemon: ClassVar[Daemon]
    shell: ClassVar[Shell]

    @classmethod
    def setUpClass(cls) -> None:
        cls.daemon = Daemon(cls.setting, "page")
        path = f"{cls.daemon.at}/bin:/usr/local/bin:/usr/sbin:/usr/bin:/sbin:/bin"
        cls.daemon.environment["PATH"] = path
        # Without it the build would begin with nothing, since HOME is another.
        cls.daemon.environment["GOCACHE"] = os.environ.get("GOCACHE", str(Path.home() / ".cache/go-build"))
        cls.daemon.start()
        for name in ("clients", "docs", "examples", "tools"):
            (cls.daemon.at / name).symlink_to(TOP / name)
        program = cls.daemon.at / "crates/wasm_shim/out/wasm_shim"
        program.parent.mkdir(parents=True)
        shutil.copy(cls.setting.folder / "wasm-shim", program)
        client = cls.daemon.at / "bin/ctr"
        client.parent.mkdir()
        call = f"{shutil.which('ctr')} --address={cls.daemon.at}/socket"
        run = f'if [ "$1" = run ]; then shift; exec {call} run --cgroup=/{cls.daemon.cgroup}/$$ "$@"; fi'
        client.write_text(f'#!/bin/sh\n{run}\nexec {call} "$@"\n')
        client.chmod(0o755)
        debugger = cls.daemon.at / "bin/feulgama"
        attach = " ".join(cls.daemon.attach_words())
        debugger.write_text(f'#!/bin/sh\nif [ "$1" = attach ]; then shift; exec {attach} "$@"; fi\n'
                            f'exec {cls.setting.folder}/feulgama "$@"\n')
        debugger.chmod(0o755)
        # /usr/local/bin is the tests' own (see `run`).
        cls.shell = Shell(cls.daemon.at, cls.daemon.environment)

    @classmethod
    def tearDownClass(cls) -> None:
        cls.shell.end()
        cls.daemon.end()
        Path("/usr/local/bin/containerd-shim-feulgama-v1").unlink(missing_ok=True)

    def test_commands(self) -> None:
        """the commands write what the page says, after those of the set-up"""
        if missing(["xxd"]):
            self.skipTest("packages are missing: xxd")
        found = commands("shim")
        self.assertGreater(len(found), 10)
        for command in commands("setup"):
            self.shell.run(command.words)
        for command in found:
            written = self.shell.run(command.words, command.typed)
            if not re.fullmatch(command.pattern, written):
                self.fail(f"{command.words}\nwrites\n{written}\nand the page has\n{command.lines}")
