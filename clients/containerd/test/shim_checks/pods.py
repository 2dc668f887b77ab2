"""Containers of one pod, which have one shim."""
from __future__ import annotations

from checks.machine import processor_time, until

from .base import WithDaemon, runs


class Pods(WithDaemon):
    """A pod is what the annotation of the sandbox says."""

    POD = "--annotation=io.kubernetes.cri.sandbox-id=pod"

    def test_one_shim(self) -> None:
        """two containers of a pod have one shim and a process each; one is paused and killed, and the other runs on"""
        first, second = self.counting(self.POD), self.counting(self.POD)
        alone = self.counting()
        self.assertEqual(len(self.daemon.shims()), 2)
        pids = [self.daemon.pid(name) for name in (first, second)]
        self.assertNotEqual(*pids)
        self.daemon.must("tasks", "pause", first)
        ticks = processor_time(pids[1])
        until("the other one runs", lambda: processor_time(pids[1]) > ticks)
        self.assertEqual([self.daemon.status(name) for name in (first, second)], ["paused", "running"])
        self.assertEqual(self.end(first, "SIGKILL"), 137)
        self.assertFalse(runs(pids[0]))
        ticks = processor_time(pids[1])
        until("the other one runs on", lambda: processor_time(pids[1]) > ticks)
        self.assertEqual(len(self.daemon.shims()), 2)
        self.assertEqual((self.end(second), self.end(alone)), (143, 143))
        for name in (first, second, alone):
            self.nothing_left(name)
