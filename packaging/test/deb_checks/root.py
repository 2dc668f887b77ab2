"""A folder with Debian's packages, in which programs are run as on a machine of their own."""
from __future__ import annotations

import shutil
import unittest
from collections.abc import Sequence
from pathlib import Path

from checks.machine import Ended, Machine, command, must

# What the checks use, and what the package depends on.
INSTALLED = "bash-completion,containerd,man-db,podman,python3,runc,zsh"
SUITE = "bookworm"
ENVIRONMENT = ("env", "-i", "PATH=/usr/sbin:/usr/bin:/sbin:/bin", "HOME=/root", "LC_ALL=C.UTF-8", "MANPAGER=cat",
               "MANWIDTH=80")
DEVICES = ("full", "null", "random", "urandom", "zero", "tty")
# What programs write there is of no package. The last two are of containerd and podman.
PASSING = ("dev", "proc", "sys", "run", "tmp", "trial", "var/cache", "var/lib/dpkg", "var/log", "etc/cni/net.d/cni.lock",
           "var/lib/containers")


def unmount(machine: Machine) -> None:
    """Takes away what is mounted in the folder of the tests."""
    for place in machine.mounts():
        command(["umount", "--lazy", place])


class Root:
    """A folder that is the root of programs."""

    def __init__(self, machine: Machine, base: Path | None) -> None:
        self.machine = machine
        self.at = machine.folder / "root"
        if base is not None:
            must(["cp", "-a", base, self.at], seconds=600)
        else:
            made = command(["mmdebstrap", "--mode=root", "--variant=minbase", f"--include={INSTALLED}", SUITE, self.at],
                           seconds=1800)
            if made.status:
                raise unittest.SkipTest(f"Debian's mirror did not give the packages: {made.err[-500:]}")
        self.mount()

    def mount(self) -> None:
        """Mounts what programs need. Nothing but cgroups is the machine's own, for what is removed here may be gone there."""
        (self.at / "trial").mkdir()
        # podman makes mounts private from / on, which has to be a mount for that.
        must(["mount", "--bind", self.at, self.at])
        must(["mount", "-t", "proc", "proc", self.at / "proc"])
        for name, mode in (("dev", "755"), ("run", "755"), ("trial", "755")):
            must(["mount", "-t", "tmpfs", "-o", f"mode={mode}", "tmpfs", self.at / name])
        for name in DEVICES:
            (self.at / "dev" / name).touch()
            must(["mount", "--bind", f"/dev/{name}", self.at / "dev" / name])
        for name, source in (("fd", "/proc/self/fd"), ("stdin", "fd/0"), ("stdout", "fd/1"), ("stderr", "fd/2"),
                             ("ptmx", "pts/ptmx")):
            (self.at / "dev" / name).symlink_to(source)
        (self.at / "dev/pts").mkdir()
        must(["mount", "-t", "devpts", "-o", "newinstance,ptmxmode=0666", "devpts", self.at / "dev/pts"])
        (self.at / "dev/shm").mkdir()
        must(["mount", "--rbind", "/sys", self.at / "sys"])

    def words(self, *words: str) -> list[str]:
        """The words of a command in the folder."""
        return ["chroot", str(self.at), *ENVIRONMENT, *words]

    def run(self, *words: str, seconds: float = 120.0) -> Ended:
        """What becomes of a command."""
        return command(self.words(*words), seconds=seconds)

    def must(self, *words: str, seconds: float = 300.0) -> str:
        """What a command writes. Raises RuntimeError if it fails."""
        return must(self.words(*words), seconds=seconds)

    def put(self, file: Path | str, name: str) -> str:
        """Copies a file, or writes a text, into the folder of trials; its name there."""
        to = self.at / "trial" / name
        if isinstance(file, Path):
            shutil.copy(file, to)
        else:
            to.write_text(file)
        return f"/trial/{name}"

    def files(self, besides: Sequence[str] = PASSING) -> set[str]:
        """All files and folders, but for those that pass."""
        found = set()
        left = [self.at]
        while left:
            for path in left.pop().iterdir():
                name = str(path.relative_to(self.at))
                if name not in besides:
                    found.add(name)
                    if path.is_dir() and not path.is_symlink():
                        left.append(path)
        return found
