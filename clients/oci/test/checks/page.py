"""The commands of docs/CONTAINERS.md, run as they are written there."""
from __future__ import annotations

import dataclasses
import os
import re
import select
import shutil
import subprocess
import time
import unittest
from dataclasses import dataclass
from pathlib import Path
from typing import ClassVar

from .containerd import Containerd
from .engines import Docker, Podman
from .host import Host, Setting
from .images import TOP, Images
from .machine import missing

PAGE = TOP / "docs" / "CONTAINERS.md"
BLOCK = re.compile(r"<!-- run: (\w+) -->\n```console\n(.*?)```\n", re.DOTALL)
KINDS: tuple[type[Podman] | type[Docker] | type[Containerd], ...] = (Podman, Docker, Containerd)
MARK = "end of a command of the page"
PROMPT = "(feulgama) "


@dataclass(frozen=True)
class Command:
    """A command of the page, with the lines that are below it."""

    words: str
    lines: str

    @property
    def typed(self) -> str:
        """What is typed to the command: the lines after the prompt of the debugger."""
        return "".join(line.removeprefix(PROMPT) for line in self.lines.splitlines(keepends=True) if line.startswith(PROMPT))

    @property
    def pattern(self) -> str:
        """What the output has to be. A line `...` is for any lines, and `...` in a line for anything in it."""
        text = re.escape(self.lines).replace(re.escape("...\n"), "(?s:.*)")
        return text.replace(re.escape("..."), ".*")


def commands(host: str) -> list[Command]:
    """The commands of the page for a host, or for the set-up."""
    found = []
    for name, block in BLOCK.findall(PAGE.read_text()):
        if name == host:
            parts = re.split(r"^\$ ", block, flags=re.MULTILINE)[1:]
            found += [Command(words, lines) for words, _, lines in (part.partition("\n") for part in parts)]
    return found


class Shell:
    """A shell that runs one command after the other, in a folder that looks like a clone of the repository."""

    def __init__(self, folder: Path, environment: dict[str, str]) -> None:
        self.process = subprocess.Popen(["bash", "--norc"], stdin=subprocess.PIPE, stdout=subprocess.PIPE,
                                        stderr=subprocess.STDOUT, cwd=folder, env=environment)

    def run(self, words: str, typed: str = "", seconds: float = 120.0) -> str:
        """What a command writes, to which some lines are typed. Raises TimeoutError if it takes too long."""
        assert self.process.stdin is not None and self.process.stdout is not None
        self.process.stdin.write(f"{{ {words}\n}} <<'{MARK}'\n{typed}{MARK}\necho '{MARK}'\n".encode())
        self.process.stdin.flush()
        text = b""
        last = time.monotonic() + seconds
        while not text.endswith(f"{MARK}\n".encode()):
            ready, _, _ = select.select([self.process.stdout], [], [], max(0.0, last - time.monotonic()))
            piece = os.read(self.process.stdout.fileno(), 65536) if ready else b""
            if not piece:
                raise TimeoutError(f"{words}: {text.decode(errors='replace')}")
            text += piece
        return text.decode()[:-len(MARK) - 1]

    def end(self) -> None:
        """Ends the shell."""
        self.process.communicate(b"exit\n", timeout=10)


class Page(unittest.TestCase):
    """Runs the page's commands with each client asking the tests' own host."""

    setting: ClassVar[Setting]
    folder: ClassVar[Path]
    hosts: ClassVar[dict[str, Host]]
    shell: ClassVar[Shell]

    @classmethod
    def setUpClass(cls) -> None:
        machine = cls.setting.machine
        cls.folder = machine.folder / "page"
        (cls.folder / "bin").mkdir(parents=True)
        for name in ("clients", "docs", "examples", "tools"):
            (cls.folder / name).symlink_to(TOP / name)
        program = cls.folder / "crates/wasm_shim/out/wasm_shim"
        program.parent.mkdir(parents=True)
        shutil.copy(cls.setting.program, program)
        # /usr/local/bin is the tests' own (see `run`).
        bare = dataclasses.replace(cls.setting, runtime=Path("/usr/local/bin/feulgama-oci"),
                                   images=Images(cls.setting.program, cls.setting.images.native, machine.folder))
        cls.hosts = {}
        for kind in KINDS:
            if not missing(kind.tools):
                host = kind(bare)
                host.folder = cls.folder / kind.name
                host.start()
                cls.hosts[kind.name] = host
                cls.put_clients(host)
        path = f"{cls.folder}/bin:/usr/local/bin:/usr/sbin:/usr/bin:/sbin:/bin"
        cls.shell = Shell(cls.folder, {**cls.setting.environment, "PATH": path})
        for command in commands("setup"):
            cls.shell.run(command.words)

    @classmethod
    def put_clients(cls, host: Host) -> None:
        """Puts programs into PATH that call a host's client, with the places of the tests."""
        cgroup = f"/{host.cgroup}-page"
        if isinstance(host, Containerd):
            words, more = ["ctr", f"--address={host.folder}/socket"], f"--cgroup={cgroup}/$$"
        elif isinstance(host, Podman):
            words, more = [f"CONTAINERS_CONF={host.folder}/containers.conf", *host.words()], f"--cgroup-parent={cgroup}"
        elif isinstance(host, Docker):
            words, more = host.words(), f"--cgroup-parent={cgroup}"
        name = "ctr" if isinstance(host, Containerd) else host.name
        words = [shutil.which(word) or word for word in words]
        client = cls.folder / "bin" / name
        call = " ".join(words)
        run = f'if [ "$1" = run ]; then shift; exec env {call} run {more} "$@"; fi'
        client.write_text(f'#!/bin/sh\n{run}\nexec env {call} "$@"\n')
        client.chmod(0o755)

    @classmethod
    def tearDownClass(cls) -> None:
        cls.shell.end()
        for host in cls.hosts.values():
            host.stop()

    def check(self, name: str) -> None:
        """Runs the commands for a host, and compares what they write with the page."""
        found = commands(name)
        self.assertNotEqual(found, [])
        for command in found:
            written = self.shell.run(command.words, command.typed)
            if not re.fullmatch(command.pattern, written):
                self.fail(f"{command.words}\nwrites\n{written}\nand the page has\n{command.lines}")

    def need_xxd(self) -> None:
        """Ends a check as one that is not run, if xxd is missing."""
        if missing(["xxd"]):
            self.skipTest("packages are missing: xxd")

    def host(self, kind: type[Host]) -> None:
        """Runs the commands for a host, if it is there."""
        self.need_xxd()
        if kind.name not in self.hosts:
            self.skipTest("packages are missing: " + " ".join(missing(kind.tools)))
        self.check(kind.name)

    def test_setup(self) -> None:
        """the build, the installation and the image"""
        self.need_xxd()
        self.check("setup")

    def test_podman(self) -> None:
        """the commands for podman"""
        self.host(Podman)

    def test_docker(self) -> None:
        """the commands for docker"""
        self.host(Docker)

    def test_containerd(self) -> None:
        """the commands for containerd"""
        self.host(Containerd)

    def test_all_blocks_are_run(self) -> None:
        """each block of commands is for a host that is run, here or by the tests of the containerd shim"""
        text = PAGE.read_text()
        self.assertEqual(len(BLOCK.findall(text)), text.count("```console"))
        self.assertEqual({name for name, _ in BLOCK.findall(text)}, {"setup", "podman", "docker", "containerd", "shim"})
