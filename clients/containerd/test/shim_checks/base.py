"""What checks with a containerd have in common."""
from __future__ import annotations

import time
import unittest
from pathlib import Path
from typing import ClassVar

from checks.machine import Ended, until

from .daemon import Daemon, Setting

MEBIBYTE = 1 << 20
FOLDERS = ("state/io.containerd.runtime.v2.task", "root/io.containerd.runtime.v2.task")


def runs(pid: int) -> bool:
    """Whether a process runs. The tests inherit those whose parent is killed, and so they stay as zombies."""
    try:
        return Path(f"/proc/{pid}/stat").read_text().rpartition(") ")[2][0] not in "ZX"
    except OSError:
        return False


class Check(unittest.TestCase):
    """A check of the run."""

    setting: ClassVar[Setting]


class WithDaemon(Check):
    """Checks with a containerd of their own, which runs while they do."""

    cri: ClassVar[bool] = False
    images: ClassVar[tuple[str, ...]] = ("hello", "counts")
    daemon: ClassVar[Daemon]

    @classmethod
    def setUpClass(cls) -> None:
        cls.daemon = Daemon(cls.setting, cls.__name__.lower(), cls.cri)
        cls.daemon.start()
        namespace = ["--namespace=k8s.io"] if cls.cri else []
        for name in cls.images:
            picture = cls.setting.images.all[name]
            file = cls.daemon.at / "image.tar"
            file.write_bytes(picture.archive(cls.setting.tool))
            cls.daemon.must(*namespace, "images", "import", str(file))

    @classmethod
    def tearDownClass(cls) -> None:
        cls.daemon.end()
        # The shim's standard error is in containerd's log.
        if cls.setting.race and "DATA RACE" in (cls.daemon.at / "log").read_text():
            raise AssertionError(f"{cls.__name__}: data race, see {cls.daemon.at}/log")

    def counting(self, *options: str) -> str:
        """Starts a container that runs for ever, and waits for its line."""
        name = self.daemon.begin("counts", options=options)
        until("the container has written", lambda: self.daemon.log(name).read_text() == "begun\n")
        return name

    def end(self, name: str, signal: str = "SIGTERM") -> int:
        """Ends a container by a signal, and answers its exit status."""
        self.daemon.kill(name, signal)
        return self.daemon.remove(name)

    def nothing_left(self, name: str) -> None:
        """Checks that a container has left no process, mount, cgroup, folder and socket."""
        def left() -> list[str]:
            folders = [self.daemon.at / folder / "default" / name for folder in FOLDERS]
            mounts = [line for line in Path("/proc/self/mountinfo").read_text().splitlines() if f"/{name}/" in line]
            groups = list(Path("/sys/fs/cgroup").glob(f"*/{self.daemon.cgroup}/{name}"))
            return [str(path) for path in [*folders, *groups] if path.exists()] + mounts + [
                f"shim {pid}" for pid in self.daemon.shims()]
        last = time.monotonic() + 10
        while (found := left()) and time.monotonic() < last:
            time.sleep(0.02)
        self.assertEqual(found, [])

    def wrote(self, ended: Ended, status: int, out: str) -> None:
        """Checks how a container ended, and what it wrote."""
        self.assertEqual((ended.status, ended.out), (status, out), ended.err)
