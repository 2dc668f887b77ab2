"""Many containers, and processes that are killed at random moments."""
from __future__ import annotations

import os
import random
import re
import signal
import subprocess
import time
from collections import Counter
from concurrent.futures import ThreadPoolExecutor
from contextlib import suppress
from pathlib import Path

from checks.machine import until

from .base import WithDaemon
from .containers import FULL
from .daemon import Events

CONTAINERS, AT_ONCE, IN_A_POD, MOMENTS = 1000, 20, 64, 50


class Storm(WithDaemon):
    """No output is lost, no exit status is wrong, each exit is told once, and nothing is left."""

    images = ("hello", "counts", "echo", "exit7", "full")

    def all_gone(self) -> None:
        """Checks that no container has left anything."""
        until("all shims have ended", lambda: self.daemon.shims() == [], 60)
        folder = self.daemon.at / "state/io.containerd.runtime.v2.task/default"
        until("all folders are gone", lambda: not folder.exists() or list(folder.iterdir()) == [], 60)
        self.assertEqual(list(Path("/run/containerd/s").iterdir()), [])
        mounts = Path("/proc/self/mountinfo").read_text()
        self.assertNotIn(f"{self.daemon.at}/state", mounts)
        groups = [path for path in Path("/sys/fs/cgroup").glob(f"*/{self.daemon.cgroup}/*") if path.is_dir()]
        self.assertEqual(groups, [])

    def test_1_short_containers(self) -> None:
        """1,000 short containers, 20 at once: no output lost, no exit status wrong, nothing left"""
        def one(number: int) -> str:
            name, kind = f"short-{number}", number % 4
            if kind == 0:
                ended, want = self.daemon.run("exit7", name=name), (7, "")
            elif kind == 1:
                ended, want = self.daemon.run("full", name=name), (0, FULL)
            else:
                ended = self.daemon.run("echo", "/echo.wasm", f"line {number}", name=name)
                want = 0, f"/echo.wasm\nline {number}\n"
            is_right = (ended.status, ended.out) == want
            return "" if is_right else f"{name}: {ended.status}, {ended.out[:200]!r}, {ended.err[:500]}"
        with ThreadPoolExecutor(AT_ONCE) as pool:
            faults = [fault for fault in pool.map(one, range(CONTAINERS)) if fault]
        self.assertEqual(faults, [])
        self.all_gone()

    def test_2_large_pod(self) -> None:
        """64 containers in one pod have one shim, run, and end with their statuses"""
        def one(number: int) -> str:
            options = ["--annotation=io.kubernetes.cri.sandbox-id=large"]
            return self.daemon.begin("counts", options=options, name=f"pod-{number}")
        with ThreadPoolExecutor(AT_ONCE) as pool:
            names = list(pool.map(one, range(IN_A_POD)))
            self.assertEqual(len(self.daemon.shims()), 1)
            threads = len(list(Path(f"/proc/{self.daemon.shims()[0]}/task").iterdir()))
            self.assertLess(threads, IN_A_POD)
            list(pool.map(self.daemon.kill, names))
            self.assertEqual(list(pool.map(self.daemon.remove, names)), [143] * IN_A_POD)
        self.all_gone()

    def test_4_journal(self) -> None:
        """a container whose requests are used up by looks refuses more, and its kill, exit, output and deletion work"""
        name = self.counting()
        words = [name, "peek", "0", "4096"]  # 16 requests, and some to let it stand still

        def look(number: int) -> str:
            return self.daemon.ctr("tasks", "exec", f"--exec-id=look-{number}", *words).err
        with ThreadPoolExecutor(4) as pool:
            refused = [text for text in pool.map(look, range(16384 // 18)) if text]
        self.assertGreater(len(refused), 0)
        self.assertEqual([text for text in refused if "wasm-shim has answered nearly all the requests" not in text], [])
        self.assertEqual(self.daemon.status(name), "running")
        self.assertEqual(self.end(name), 143)
        self.assertEqual(self.daemon.log(name).read_text(), "begun\n")
        self.all_gone()

    def test_5_debuggers(self) -> None:
        """50 debuggers of five containers are killed at random moments: the containers run on, and end with 143"""
        chance = random.Random(20261129)
        names = [self.counting() for _ in range(5)]
        for _ in range(MOMENTS):
            words = self.daemon.attach_words(chance.choice(names))
            with subprocess.Popen(words, stdin=subprocess.PIPE, stdout=subprocess.DEVNULL, stderr=subprocess.DEVNULL,
                                  env=self.daemon.environment) as process:
                assert process.stdin is not None
                process.stdin.write(b"stepi 10\nbreak 1:7\ncontinue\ncontinue\nreverse-stepi\ndelete\ncontinue\n")
                process.stdin.flush()
                time.sleep(chance.random() * 1.5)
                process.kill()
        for name in names:
            self.runs_on(name)
            self.assertEqual(self.end(name), 143)
            self.assertEqual(self.daemon.log(name).read_text(), "begun\n")
        self.all_gone()

    def runs_on(self, name: str) -> None:
        """Checks that a container runs, and makes turns."""
        until(f"{name} runs on", lambda: self.daemon.status(name) == "running")
        first, second = (self.daemon.ctr("tasks", "exec", "--exec-id=x", name, "state").out for _ in range(2))
        self.assertLess(int(first.split()[2]), int(second.split()[2]))

    def killed(self, name: str, what: str, chance: random.Random) -> list[Events]:
        """Kills a process of a container at a random moment of its life. A new containerd has new listeners."""
        time.sleep(chance.random() * 0.5)
        if what == "containerd":
            self.daemon.end(hard=True)
            self.daemon.start()
            return [Events(self.daemon)]
        with suppress(IndexError, ProcessLookupError, RuntimeError):  # there is none yet, or none any more
            os.kill(self.daemon.shims()[0] if what == "shim" else self.daemon.pid(name), signal.SIGKILL)
        return []

    def one_kill(self, name: str, what: str, chance: random.Random) -> tuple[bool, int]:
        """A container whose process, shim or containerd is killed: whether it was started, and how often its exit is told."""
        events = [Events(self.daemon)]
        with ThreadPoolExecutor(1) as pool:
            options = [*self.daemon.options(name), f"--log-uri=file://{self.daemon.log(name)}"]
            begun = pool.submit(self.daemon.ctr, "run", "-d", *options, self.setting.images.all["counts"].reference, name)
            events += self.killed(name, what, chance)
            started = begun.result().status == 0
        row = self.daemon.row(name)
        if row and row[2] != "CREATED":
            started = True
            self.daemon.ctr("tasks", "kill", "--signal=SIGKILL", name)
            until("it has stopped", lambda: (self.daemon.row(name) or ["", "", "STOPPED"])[2] == "STOPPED")
        self.daemon.ctr("tasks", "delete", "--force", name)
        until("the task is gone", lambda: self.daemon.row(name) == [])
        self.daemon.ctr("containers", "delete", name)
        for one in events:
            one.end()
        return started, sum(one.topics(name).count("exit") for one in events)

    def test_3_kills(self) -> None:
        """a shim, a process of a module or containerd is killed at 50 random moments: exits are told once, nothing is left"""
        chance = random.Random(20261128)
        found: Counter[str] = Counter()
        for number in range(MOMENTS):
            what = chance.choice(["containerd", "shim", "process"])
            started, exits = self.one_kill(f"killed-{number}", what, chance)
            found[f"{what}, {'started' if started else 'not started'}, {exits} exits"] += 1
        print("       ", dict(sorted(found.items())))
        right = re.compile(r".*, (started, 1|not started, [01]) exits")
        self.assertEqual([words for words in found if not right.fullmatch(words)], [])
        # Sockets of shims that were killed at once are removed by the next one that is started some seconds later.
        time.sleep(6)
        self.wrote(self.daemon.run("hello"), 0, "hello, feulgama\n")
        self.all_gone()
