"""What happens when one of the processes is ended: containerd, the shim, or the one that runs a module."""
from __future__ import annotations

import os
import signal

from checks.machine import until

from .base import WithDaemon, runs
from .daemon import Events


class Survival(WithDaemon):
    """Each container's exit is told once, and nothing is left."""

    images = ("hello", "counts", "exit7")

    def test_containerd_starts_again(self) -> None:
        """containerd ends and starts again: it finds its containers, and all calls work"""
        for hard in (False, True):
            name = self.counting()
            pid = self.daemon.pid(name)
            self.daemon.end(hard)
            self.daemon.start()
            self.assertEqual((self.daemon.pid(name), self.daemon.status(name)), (pid, "running"))
            self.daemon.must("tasks", "pause", name)
            self.assertEqual(self.daemon.status(name), "paused")
            self.daemon.must("tasks", "resume", name)
            self.assertEqual(self.end(name), 143)
            self.nothing_left(name)

    def test_exit_without_containerd(self) -> None:
        """a container that ends while containerd is away has its exit status and its output afterwards"""
        name = self.counting()
        pid = self.daemon.pid(name)
        self.daemon.end()
        os.kill(pid, signal.SIGKILL)
        until("it has ended", lambda: not runs(pid))
        self.daemon.start()
        self.assertEqual(self.daemon.status(name), "stopped")
        self.assertEqual(self.daemon.remove(name), 137)
        self.assertEqual(self.daemon.log(name).read_text(), "begun\n")
        self.nothing_left(name)

    def test_process_killed(self) -> None:
        """the process of a container is killed: its exit is 137, told once"""
        events = Events(self.daemon)
        name = self.counting()
        os.kill(self.daemon.pid(name), signal.SIGKILL)
        self.assertEqual(self.daemon.remove(name), 137)
        until("its deletion is told", lambda: "delete" in events.topics(name))
        events.end()
        self.assertEqual(events.topics(name), ["create", "start", "exit", "delete"])
        self.assertEqual(dict(events.of(name))["exit"]["exit_status"], 137)
        self.nothing_left(name)

    def test_shim_killed(self) -> None:
        """the shim is killed: containerd tells exit and deletion, once, and the call `delete` leaves nothing"""
        events = Events(self.daemon)
        name = self.counting()
        pid = self.daemon.pid(name)
        os.kill(self.daemon.shims()[0], signal.SIGKILL)
        until("its deletion is told", lambda: "delete" in events.topics(name))
        events.end()
        self.assertEqual(events.topics(name), ["create", "start", "exit", "delete"])
        self.assertEqual(dict(events.of(name))["exit"]["exit_status"], 137)
        until("its process has ended", lambda: not runs(pid))
        self.daemon.must("containers", "delete", name)
        self.nothing_left(name)
        self.assertEqual(self.daemon.sockets(name), [])

    def test_shim_killed_after_the_exit(self) -> None:
        """the shim is killed after a container has ended: the deletion has the exit status of the module"""
        events = Events(self.daemon)
        name = self.daemon.begin("exit7")
        until("its exit is told", lambda: "exit" in events.topics(name))
        os.kill(self.daemon.shims()[0], signal.SIGKILL)
        until("its deletion is told", lambda: "delete" in events.topics(name))
        events.end()
        self.assertEqual({event["exit_status"] for topic, event in events.of(name) if topic in ("exit", "delete")}, {7})
        self.daemon.must("containers", "delete", name)
        self.nothing_left(name)

    def test_both_killed(self) -> None:
        """containerd and the shim are killed: the next containerd cleans up, and nothing is left"""
        name = self.counting()
        pid = self.daemon.pid(name)
        shim = self.daemon.shims()[0]
        self.daemon.end(hard=True)
        os.kill(shim, signal.SIGKILL)
        self.daemon.start()
        until("its process has ended", lambda: not runs(pid))
        until("the task is gone", lambda: self.daemon.row(name) == [])
        self.daemon.must("containers", "delete", name)
        self.nothing_left(name)
