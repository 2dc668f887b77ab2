"""A swarm of three docker daemons, one of which is lost while modules run."""
from __future__ import annotations

import json
import os
import re
import signal
import unittest
from pathlib import Path
from typing import ClassVar

from .engines import Docker
from .host import Setting
from .images import Picture, layer
from .machine import below, command, command_line, missing, must, until

NODES = 3
NETWORK = "10.99.0"

# The module counts for some tenths of a second, and then writes its environment.
COUNTS = """(local $count i64)
    loop local.get $count i64.const 1 i64.add local.tee $count i64.const 30000000 i64.lt_u br_if 0 end"""


class Node(Docker):
    """A docker daemon in a network namespace of its own, whose containers all have feulgama-oci."""

    def __init__(self, setting: Setting, number: int) -> None:
        super().__init__(setting)
        self.name = f"node{number}"  # type: ignore[misc]
        self.folder = setting.machine.folder / self.name
        self.cgroup = f"{setting.machine.name}-{self.name}"
        self.address = f"{NETWORK}.{number}"
        self.id = ""

    def start(self) -> None:
        self.folder.mkdir()
        at = self.folder
        must(["ip", "netns", "add", self.name])
        must(["ip", "link", "add", f"to-{self.name}", "type", "veth", "peer", "name", "eth0", "netns", self.name])
        must(["ip", "link", "set", f"to-{self.name}", "master", "bridge0", "up"])
        for words in (f"addr add {self.address}/24 dev eth0", "link set eth0 up", "link set lo up",
                      f"route add default via {NETWORK}.254"):
            must(["ip", "-n", self.name, *words.split()])
        (at / "daemon.json").write_text(json.dumps({"deprecated-key-path": f"{at}/key.json"}))
        self.setting.machine.daemon(
            ["nsenter", f"--net=/run/netns/{self.name}", "dockerd", f"--config-file={at}/daemon.json",
             f"--host=unix://{at}/socket", f"--data-root={at}/data", f"--exec-root={at}/exec", f"--pidfile={at}/pid",
             "--bridge=none", "--iptables=false", "--ip6tables=false", f"--cgroup-parent=/{self.cgroup}",
             f"--add-runtime=feulgama={self.setting.runtime}", "--default-runtime=feulgama"], at / "log", self.environment)

    def processes(self) -> list[int]:
        """The daemon, its containerd, and the shims with their containers."""
        own = [pid for pid in below(os.getpid()) if f"{self.folder}/" in command_line(pid)]
        return sorted({pid for top in own for pid in (top, *below(top))})

    def lose(self) -> list[int]:
        """Kills all of its processes, as if its machine had lost its power, and answers which there were."""
        found = self.processes()
        for pid in reversed(found):
            try:
                os.kill(pid, signal.SIGKILL)
            except ProcessLookupError:
                continue  # it ended with another
        return found


class Swarm(unittest.TestCase):
    """One check, since each step needs the one before."""

    setting: ClassVar[Setting]
    jobs: ClassVar[int]

    def setUp(self) -> None:
        absent = missing([*Docker.tools, "ip", "nsenter"])
        if absent:
            self.skipTest("packages are missing: " + " ".join(absent))
        must(["ip", "link", "add", "bridge0", "type", "bridge"])
        must(["ip", "link", "set", "bridge0", "up"])
        self.nodes = [Node(self.setting, number) for number in range(1, NODES + 1)]
        self.addCleanup(self.end)
        for node in self.nodes:
            node.start()
        for node in self.nodes:
            node.answers(node.words("version"))

    def end(self) -> None:
        """Ends the nodes, and clears away what the lost one has left: its processes, mounts, cgroups and sockets."""
        machine, lost = self.setting.machine, self.nodes[-1]
        for node in self.nodes[:-1]:
            command(node.words("swarm", "leave", "--force"), node.environment)
        lost.lose()
        machine.end_daemons()
        until("the lost node has ended", lambda: not lost.lose())
        for place in machine.mounts():
            if place.startswith(f"{lost.folder}/"):
                must(["umount", "--lazy", place])
        for cgroup in machine.cgroups():
            if lost.cgroup in str(cgroup):
                cgroup.rmdir()
        for socket in Path("/run/containerd/s").iterdir():
            socket.unlink()
        for node in self.nodes:
            must(["ip", "netns", "delete", node.name])

    def picture(self) -> Picture:
        """The image of the job."""
        text = self.setting.images.texts["environment"].replace("(local $at i32)", f"(local $at i32) {COUNTS}", 1)
        return Picture("job", layer({"job.wasm": self.setting.images.assemble(text)}), ("/job.wasm",))

    def join(self) -> None:
        """Makes a swarm of the nodes, each with the image."""
        first, *others = self.nodes
        first.must("swarm", "init", f"--advertise-addr={first.address}")
        token = first.must("swarm", "join-token", "-q", "worker").strip()
        for node in others:
            node.must("swarm", "join", f"--advertise-addr={node.address}", f"--token={token}", f"{first.address}:2377")
        picture = self.picture()
        for node in self.nodes:
            node.must("load", "-q", "-i", str(node.archive(picture)))
            node.id = node.must("info", "-f", "{{.Swarm.NodeID}}").strip()
        first.must("service", "create", "--detach", "--name=jobs", "--mode=replicated-job", f"--replicas={self.jobs}",
                   "--max-concurrent=12", "--restart-condition=on-failure", "--no-resolve-image", "--env=TASK={{.Task.ID}}",
                   picture.reference)

    def states(self) -> dict[int, tuple[str, str, str]]:
        """A task of each job, by the number of the job: its state, its node and its id. A task that is complete counts."""
        first = self.nodes[0]
        ids = first.must("service", "ps", "-q", "--no-trunc", "jobs").split()
        states: dict[int, tuple[str, str, str]] = {}
        for task in json.loads(first.must("inspect", "--type=task", *ids)) if ids else []:
            state, node = task["Status"]["State"], task.get("NodeID", "")
            slot = task.get("Slot", 0)  # 0 is left out
            if states.get(slot, ("",))[0] != "complete":
                states[slot] = (state, node, task["ID"])
        return states

    def complete(self) -> int:
        """How many jobs are complete."""
        return sum(state == "complete" for state, *_ in self.states().values())

    def test_a_node_is_lost(self) -> None:
        """all jobs of a swarm are done once, with the right output, although a node is lost in the middle"""
        self.join()
        first, lost = self.nodes[0], self.nodes[-1]
        until("a third of the jobs is done", lambda: self.complete() >= self.jobs // 3, 300.0)
        lost.lose()
        before = self.complete()
        self.assertLess(before, self.jobs)
        first.must("node", "rm", "--force", lost.id)
        until("all jobs are done", lambda: self.complete() == self.jobs, 600.0)
        states = self.states()
        self.assertEqual(sorted(states), list(range(self.jobs)))
        # What ran on the lost node cannot be asked for any more, and docker says so by its status.
        logs = command(first.words("service", "logs", "--no-trunc", "jobs"), first.environment).out
        lines = re.findall(r"^jobs\.\S*@\S* *\| TASK=(\S+)$", logs, re.MULTILINE)
        there = [task for _, node, task in states.values() if node != lost.id]
        self.assertEqual(sorted(lines), sorted(there))
        print(f"        {self.jobs} jobs, {before} of them when the node was lost, and {self.jobs - len(there)} on that node")
