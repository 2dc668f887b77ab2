"""Cgroups of version 2. Where those of version 1 have the controllers, version 2 has none, and only the rest is tried."""
from __future__ import annotations

from pathlib import Path
from typing import ClassVar

from checks.machine import command, must

from .base import WithDaemon

AT = Path("/sys/fs/cgroup")
BEFORE = Path("/run/cgroups-of-before")


class SecondVersion(WithDaemon):
    """containerd and the shim with version 2 at /sys/fs/cgroup."""

    images = ("hello", "counts", "exit7")
    mounted: ClassVar[bool] = False

    @classmethod
    def setUpClass(cls) -> None:
        if not (AT / "cgroup.controllers").exists():
            cls.mounted = command(["mount", "-t", "cgroup2", "cgroup2", AT]).status == 0
        if (AT / "cgroup.controllers").exists():
            super().setUpClass()

    @classmethod
    def tearDownClass(cls) -> None:
        if hasattr(cls, "daemon"):
            super().tearDownClass()
        if cls.mounted:
            must(["umount", AT])

    def setUp(self) -> None:
        if not (AT / "cgroup.controllers").exists():
            self.skipTest("cgroups of version 2 cannot be mounted here")

    def test_life(self) -> None:
        """a container runs, has a cgroup of its own and metrics, is paused, resumed and ended, and its cgroup is gone"""
        self.wrote(self.daemon.run("hello"), 0, "hello, feulgama\n")
        name = self.counting()
        group = AT / self.daemon.cgroup / name
        self.assertEqual((group / "cgroup.procs").read_text(), f"{self.daemon.pid(name)}\n")
        self.assertIn("pids.current", self.daemon.must("tasks", "metrics", name))
        self.daemon.must("tasks", "pause", name)
        self.daemon.must("tasks", "resume", name)
        self.assertEqual(self.end(name), 143)
        self.assertFalse(group.exists())
        (AT / self.daemon.cgroup).rmdir()

    def test_limits(self) -> None:
        """the cgroup has the container's limits"""
        if "memory" not in (AT / "cgroup.controllers").read_text().split():
            self.skipTest("version 1 has the controller of memory on this machine")
        name = self.counting(f"--memory-limit={64 << 20}")
        self.assertEqual((AT / self.daemon.cgroup / name / "memory.max").read_text(), f"{96 << 20}\n")
        self.end(name)
