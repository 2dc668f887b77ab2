"""What a container of a module does under containerd, by ctr."""
from __future__ import annotations

import os
import re
import stat
import subprocess
import time
from concurrent.futures import ThreadPoolExecutor
from pathlib import Path

from checks.images import Picture
from checks.machine import processor_time, until

from .base import MEBIBYTE, WithDaemon
from .daemon import Events

LONG = "long-" + "0123456789" * 7 + "x"  # 76 characters, the most that containerd takes
FULL = ("0123456789\n" * 7000)[:65536]
LOGGER = """#!/bin/sh
exec 5>&-
cat <&3 >"$1" & cat <&4 >"$1.err"
wait
"""


class Containers(WithDaemon):
    """One container after the other."""

    images = ("hello", "counts", "exit7", "exit1000", "trap", "bad", "echo", "environment", "grow", "pages", "full", "native")

    # how a module ends

    def test_hello(self) -> None:
        """hello writes its line and ends with 0, and nothing is left"""
        self.wrote(self.daemon.run("hello", name="first"), 0, "hello, feulgama\n")
        self.nothing_left("first")

    def test_exit_status(self) -> None:
        """proc_exit(7) is the status 7"""
        self.wrote(self.daemon.run("exit7"), 7, "")

    def test_exit_status_whole(self) -> None:
        """proc_exit(1000) is the status 1000, not its lowest 8 bits"""
        self.assertEqual(self.daemon.remove(self.daemon.begin("exit1000")), 1000)

    def test_trap(self) -> None:
        """a trap is the status 134, and its name is written to standard error"""
        ended = self.daemon.run("trap")
        self.wrote(ended, 134, "")
        self.assertIn("trap: unreachable\n", ended.err)

    def test_refused_module(self) -> None:
        """a refused module fails at create, with number and reason, and nothing is left"""
        ended = self.daemon.run("bad", name="refused")
        self.wrote(ended, 1, "")
        self.assertIn("create: refused 7 BadModule: create: byte 0x43 at offset 35, function 0: f32.const", ended.err)
        self.assertIn("invalid argument", ended.err)
        self.nothing_left("refused")

    def test_native_program(self) -> None:
        """another program is refused"""
        ended = self.daemon.run("native")
        self.wrote(ended, 1, "")
        self.assertIn('"/feulgama-oci", is no WebAssembly module', ended.err)

    # what a module sees

    def test_arguments(self) -> None:
        """the module sees its arguments, the first as the config has it"""
        ended = self.daemon.run("echo", "/echo.wasm", "one", "-x", "two words", "--")
        self.wrote(ended, 0, "/echo.wasm\none\n-x\ntwo words\n--\n")

    def test_environment(self) -> None:
        """the module sees the environment of its container"""
        ended = self.daemon.run("environment", options=["--env=COLOUR=red = blue", "--env=EMPTY="])
        lines = ended.out.splitlines()
        self.assertTrue({"COLOUR=red = blue", "EMPTY="} <= set(lines), ended.out + ended.err)

    def test_large_environment(self) -> None:
        """over 64 entries of the environment are refused, and the reason names enableServiceLinks"""
        ended = self.daemon.run("environment", options=[f"--env=N{number}=x" for number in range(65)])
        self.wrote(ended, 1, "")
        self.assertIn("refused 10 BadConfig", ended.err)
        self.assertIn("enableServiceLinks: false", ended.err)

    def test_memory(self) -> None:
        """without a limit a module has 256 pages, and with one as many as are whole in it"""
        self.assertEqual(self.daemon.run("grow").status, 256 - 100)
        limited = self.daemon.run("grow", options=[f"--memory-limit={12 * MEBIBYTE}"])
        self.assertEqual(limited.status, 12 * 16 - 100, limited.err)

    def test_memory_at_first(self) -> None:
        """a module that begins with 17 pages runs without a limit, and is refused with one of 1 MiB"""
        self.assertEqual(self.daemon.run("pages").status, 17)
        refused = self.daemon.run("pages", options=[f"--memory-limit={MEBIBYTE}"])
        self.assertEqual(refused.status, 1)
        self.assertIn("refused 9 Limit", refused.err)

    def test_full_stream(self) -> None:
        """the first 65,536 bytes of a stream are all there, and standard error says that it was full"""
        ended = self.daemon.run("full")
        self.assertEqual((ended.status, len(ended.out), ended.err), (0, 65536, "standard output is full: 65536 bytes\n"))
        self.assertTrue(ended.out == FULL)  # a report of the difference would take minutes

    # a container that runs

    def test_life(self) -> None:
        """a container is listed, paused, resumed, and ended by SIGTERM with 143; its events come once and in order"""
        events = Events(self.daemon)
        name = self.counting()
        self.assertEqual(self.daemon.status(name), "running")
        self.daemon.must("tasks", "pause", name)
        self.assertEqual(self.daemon.status(name), "paused")
        pid = self.daemon.pid(name)
        ticks = processor_time(pid)
        time.sleep(0.3)
        self.assertEqual(processor_time(pid), ticks)
        self.daemon.must("tasks", "resume", name)
        until("it goes on", lambda: processor_time(pid) > ticks)
        self.assertEqual(self.end(name), 143)
        until("its deletion is told", lambda: "delete" in events.topics(name))
        events.end()
        self.assertEqual(events.topics(name), ["create", "start", "paused", "resumed", "exit", "delete"])
        self.assertEqual(dict(events.of(name))["exit"]["exit_status"], 143)
        self.nothing_left(name)

    def test_sigkill(self) -> None:
        """SIGKILL ends a container with 137, and one that has ended cannot be killed"""
        name = self.counting()
        self.daemon.kill(name, "SIGKILL")
        until("it has stopped", lambda: self.daemon.status(name) == "stopped")
        again = self.daemon.ctr("tasks", "kill", name)
        self.assertIn("not found", again.err)
        self.assertEqual(self.daemon.remove(name), 137)

    def test_kill_is_soon_told(self) -> None:
        """an exit is told when it comes: within two seconds after SIGTERM, the commands of ctr included"""
        events = Events(self.daemon)
        name = self.counting()
        began = time.monotonic()
        self.daemon.kill(name)
        until("the exit is told", lambda: "exit" in events.topics(name))
        self.assertLess(time.monotonic() - began, 2.0)
        events.end()
        self.daemon.remove(name)

    def test_paused_and_killed(self) -> None:
        """a paused container ends by SIGTERM"""
        name = self.counting()
        self.daemon.must("tasks", "pause", name)
        self.assertEqual(self.end(name), 143)

    def test_processes_and_metrics(self) -> None:
        """ps shows the one process, and metrics have its memory and its processor time"""
        name = self.counting()
        self.assertEqual(self.daemon.must("tasks", "ps", name).split()[2], str(self.daemon.pid(name)))
        metrics = self.daemon.must("tasks", "metrics", name)
        found = re.search(r"(?:memory.usage_in_bytes|memory.usage)\s+(\d+)", metrics)
        self.assertTrue(found and int(found[1]) > 100_000, metrics)
        self.end(name)

    def test_limits(self) -> None:
        """the cgroup has the container's limits: its memory and 32 MiB for the interpreter, and its processors"""
        name = self.counting(f"--memory-limit={64 * MEBIBYTE}", "--cpus=0.5")
        paths = [line.split(":", 2) for line in Path(f"/proc/{self.daemon.pid(name)}/cgroup").read_text().splitlines()]
        place = {names: path for _, names, path in paths}
        self.assertEqual(place["memory"], f"/{self.daemon.cgroup}/{name}")
        memory = Path(f"/sys/fs/cgroup/memory{place['memory']}/memory.limit_in_bytes")
        quota = Path(f"/sys/fs/cgroup/cpu{place['cpu']}/cpu.cfs_quota_us")
        self.assertEqual((int(memory.read_text()), int(quota.read_text())), (96 * MEBIBYTE, 50_000))
        self.end(name)

    def test_rights(self) -> None:
        """the process is nobody, without rights and network, and has no files but its pipes and /dev/null"""
        name = self.counting()
        pid = self.daemon.pid(name)
        lines = Path(f"/proc/{pid}/status").read_text().splitlines()
        status = {key: value.split() for key, _, value in (line.partition(":") for line in lines)}
        self.assertEqual((status["Uid"], status["Gid"], status["Groups"]), (["65534"] * 4, ["65534"] * 4, []))
        for rights in ("CapInh", "CapPrm", "CapEff", "CapBnd", "CapAmb"):
            self.assertEqual(int(status[rights][0], 16), 0, rights)
        self.assertEqual(status["NoNewPrivs"], ["1"])
        files = {str(path.readlink()) for path in Path(f"/proc/{pid}/fd").iterdir()}
        self.assertEqual([file for file in files if not file.startswith("pipe:") and file != "/dev/null"], [])
        for kind in ("net", "ipc", "uts", "pid"):
            self.assertNotEqual(Path(f"/proc/{pid}/ns/{kind}").readlink(), Path(f"/proc/self/ns/{kind}").readlink(), kind)
        self.assertNotIn("eth", Path(f"/proc/{pid}/net/dev").read_text())
        self.assertEqual(Path(f"/proc/{pid}/environ").read_bytes(), b"")
        self.end(name)

    def test_sockets_and_mounts(self) -> None:
        """the shim's socket is root's alone, and a container has no mount while it lives"""
        name = self.counting()
        sockets = self.daemon.sockets(name)
        self.assertEqual([stat.S_IMODE(path.stat().st_mode) for path in sockets], [0o600] * len(sockets))
        self.assertEqual(len(sockets), 1)
        self.assertNotIn(f"/{name}/rootfs", Path("/proc/self/mountinfo").read_text())
        self.end(name)
        until("the socket is gone", lambda: not self.daemon.sockets(name))

    def test_long_name(self) -> None:
        """a name of 76 characters works"""
        self.wrote(self.daemon.run("hello", name=LONG), 0, "hello, feulgama\n")
        name = self.daemon.begin("counts", name=LONG)
        self.assertEqual(self.end(name), 143)

    def test_twenty_at_once(self) -> None:
        """20 containers at once write their own lines"""
        def one(number: int) -> tuple[int, str]:
            ended = self.daemon.run("echo", "/echo.wasm", f"line {number}", name=f"at-once-{number}")
            return ended.status, ended.out
        with ThreadPoolExecutor(20) as pool:
            found = list(pool.map(one, range(20)))
        self.assertEqual(found, [(0, f"/echo.wasm\nline {number}\n") for number in range(20)])

    # where output goes

    def test_logger(self) -> None:
        """a program for logs (binary://) gets the output while the container runs, and ends with it"""
        program, log = self.daemon.at / "logger", self.daemon.at / "logged"
        program.write_text(LOGGER)
        program.chmod(0o755)
        name = self.daemon.begin("counts", options=[f"--log-uri=binary://{program}?{log}"])
        until("the program has the line", lambda: log.exists() and log.read_text() == "begun\n")
        self.assertEqual(self.end(name), 143)

    def in_terminal(self, image: str, want: bytes) -> tuple[int, bytes]:
        """How a container with a terminal ends, and what the terminal shows until it has what is wanted."""
        reference, name = self.setting.images.all[image].reference, f"tty-{image}"
        words = self.daemon.words("run", "--rm", "-t", *self.daemon.options(name), reference, name)
        leader, follower = os.openpty()
        with subprocess.Popen(words, stdin=follower, stdout=follower, stderr=follower, env=self.daemon.environment) as process:
            os.close(follower)
            text = b""
            while process.poll() is None or want not in text:
                try:
                    text += os.read(leader, 1000)
                except OSError:
                    break
        os.close(leader)
        return process.returncode, text

    def test_terminal(self) -> None:
        """with a terminal (-t) the output is there, and so is the name of a trap"""
        for image, status, want in (("hello", 0, b"hello, feulgama"), ("trap", 134, b"trap: unreachable")):
            ended, text = self.in_terminal(image, want)
            self.assertEqual(ended, status, text)
            self.assertIn(want, text)

    # where the module comes from

    def test_root_folder(self) -> None:
        """the image may be a folder (--rootfs)"""
        folder = self.daemon.at / "folder"
        folder.mkdir()
        (folder / "m.wasm").write_bytes(self.setting.images.modules["exit7"])
        ended = self.daemon.ctr("run", "--rm", *self.daemon.options("rooted"), "--rootfs", str(folder), "rooted", "/m.wasm")
        self.wrote(ended, 7, "")

    def test_other_platform(self) -> None:
        """an image for wasi/wasm runs"""
        picture = self.setting.images.all["hello"]
        image = self.setting.tool.Image(picture.layer, picture.words[0], "localhost/hello:wasi",
                                        self.setting.tool.Platform("wasi", "wasm"), [], [])
        file = self.daemon.at / "wasi.tar"
        file.write_bytes(image.archive())
        self.daemon.must("images", "import", "--platform=wasi/wasm", str(file))
        options = ["--platform=wasi/wasm", *self.daemon.options("wasi")]
        self.wrote(self.daemon.ctr("run", "--rm", *options, "localhost/hello:wasi", "wasi"), 0, "hello, feulgama\n")

    def test_native_snapshots(self) -> None:
        """the snapshotter `native`, whose mounts are binds, works"""
        picture = self.setting.images.all["hello"]
        plain = Picture("plain", picture.layer, picture.words)
        self.daemon.load(plain, words=["--snapshotter=native"])
        options = ["--snapshotter=native", *self.daemon.options("plain")]
        self.wrote(self.daemon.ctr("run", "--rm", *options, plain.reference, "plain"), 0, "hello, feulgama\n")

    # what is not there

    def test_checkpoint(self) -> None:
        """a checkpoint is refused"""
        name = self.counting()
        ended = self.daemon.ctr("tasks", "checkpoint", name)
        self.assertNotEqual(ended.status, 0)
        self.assertIn("a container of a module has no checkpoints", ended.err)
        self.assertEqual(self.end(name), 143)
