"""What is left on the machine when all hosts have ended."""
from __future__ import annotations

import os
import signal
import unittest
from pathlib import Path
from typing import ClassVar

from .host import Setting
from .machine import CGROUPS, command

# /run is the tests' own (see `run`). Folders that daemons make there and leave empty are no matter.
PLACES = ("/run/containerd", "/run/runc", "/run/netns", "/run/crun")


class Remains(unittest.TestCase):
    """The last checks. They clean up what they find, so that the next run begins afresh."""

    setting: ClassVar[Setting]

    def test_1_processes(self) -> None:
        """no process is left"""
        left = self.setting.machine.processes()
        for pid in left:
            os.kill(pid, signal.SIGKILL)
        self.setting.machine.processes()
        self.assertEqual(left, {})

    def test_2_mounts(self) -> None:
        """no mount is left, but for those that podman keeps over its storage"""
        machine = self.setting.machine
        left = machine.mounts()
        for place in left:
            command(["umount", "--lazy", place])
        self.assertEqual([place for place in left if not place.endswith("/podman/root/overlay")], [])

    def test_3_cgroups(self) -> None:
        """no container has left a cgroup"""
        left = self.setting.machine.cgroups()
        parents = {path for path in left if path.parent.parent == CGROUPS or path.parent == CGROUPS}
        for path in left:
            path.rmdir()
        self.assertEqual([str(path) for path in left if path not in parents and path.name != "conmon"], [])

    def test_4_sockets_and_states(self) -> None:
        """no socket, no FIFO and no state of a container is left"""
        left = [str(path) for place in PLACES for path in Path(place).rglob("*") if not path.is_dir()]
        self.assertEqual(left, [])

    def test_5_folder(self) -> None:
        """the folder of the tests can be removed"""
        machine = self.setting.machine
        self.assertEqual(machine.mounts(), [])
        machine.remove()
        self.assertFalse(machine.folder.exists())
