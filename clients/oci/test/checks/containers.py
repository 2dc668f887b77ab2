"""What a container of a module does, the same under each host."""
from __future__ import annotations

import dataclasses
import os
import signal
import time
import unittest
from pathlib import Path
from typing import ClassVar

from .containerd import Containerd
from .engines import Docker, Engine, Podman
from .host import Host, Setting, Wish
from .lowered import ANNOTATION
from .machine import Ended, command, missing, processor_time, until
from .runc import Runc

MEBIBYTE = 1 << 20


class Containers(unittest.TestCase):
    """The checks. Each class below has a host of its own, which runs while its checks do."""

    kind: ClassVar[type[Host]]
    setting: ClassVar[Setting]
    host: ClassVar[Host]
    packages: ClassVar[list[str]]

    @classmethod
    def setUpClass(cls) -> None:
        cls.packages = missing(cls.kind.tools)
        if not cls.packages:
            cls.host = cls.kind(cls.setting)
            cls.host.start()

    @classmethod
    def tearDownClass(cls) -> None:
        if not cls.packages:
            cls.host.stop()

    def setUp(self) -> None:
        if self.packages:
            self.skipTest("packages are missing: " + " ".join(self.packages))

    def wish(self, name: str, *words: str, memory: int | None = None, entries: tuple[str, ...] = ()) -> Wish:
        """A container of an image."""
        return Wish(self.setting.images.all[name], words, memory, entries)

    def begin(self, name: str, memory: int | None = None) -> str:
        """Starts a container that runs for ever, and waits for its line."""
        container = self.host.begin(self.wish(name, memory=memory))
        until("the container has written", lambda: self.host.logs(container) == "begun\n")
        return container

    def end(self, container: str) -> None:
        """Stops a container that runs for ever, in the time that is promised."""
        began = time.monotonic()
        status = self.host.end(container)
        seconds = time.monotonic() - began
        self.host.remove(container)
        self.assertEqual(status, 143)
        self.assertLess(seconds, 1.0)

    # how a module ends

    def test_hello(self) -> None:
        """hello writes its line and ends with 0"""
        ended = self.host.run(self.wish("hello"))
        self.assertEqual((ended.status, ended.out), (0, "hello, feulgama\n"), ended.err)

    def test_exit_status(self) -> None:
        """proc_exit(7) is the status 7"""
        ended = self.host.run(self.wish("exit7"))
        self.assertEqual((ended.status, ended.out), (7, ""), ended.err)

    def test_trap(self) -> None:
        """a trap is the status 134, and its name is in the log"""
        ended = self.host.run(self.wish("trap"))
        self.assertEqual((ended.status, ended.out), (134, ""))
        self.assertIn("trap: unreachable\n", ended.err)

    def test_refused_module(self) -> None:
        """a refused module is the status 125, with number and reason in the log"""
        ended = self.host.run(self.wish("bad"))
        self.assertEqual((ended.status, ended.out), (125, ""))
        self.assertIn("refused 7 BadModule\n", ended.err)
        self.assertIn("why: byte 0x43 at offset 35, function 0: f32.const", ended.err)

    # modules that have to be lowered

    def lowered(self, name: str, value: str = "true") -> Ended:
        """What becomes of a container whose annotation asks for it."""
        return self.host.run(dataclasses.replace(self.wish(name), annotation=f"{ANNOTATION}={value}"))

    def test_lowered(self) -> None:
        """modules with doubles and with bulk memory are refused, and run if the annotation asks for lowering"""
        if not self.host.has_annotations():
            self.skipTest("this version of the host has no annotations")
        for name, status in (("double", 4), ("bulk", 9)):
            ended = self.host.run(self.wish(name))
            self.assertEqual(ended.status, 125)
            self.assertIn("refused 7 BadModule\n", ended.err)
            ended = self.lowered(name)
            self.assertEqual((ended.status, ended.out), (status, ""), ended.err)

    def test_not_lowered(self) -> None:
        """the reason is told of modules that cannot be lowered, and of a value that the annotation cannot have"""
        if not self.host.has_annotations():
            self.skipTest("this version of the host has no annotations")
        for name, value, word in (("vector", "true", "the module cannot be lowered: .*SIMD"),
                                  ("roots", "true", "the lowered module has more than 262144 bytes"),
                                  ("double", "yes", 'dev.shim.lower is "yes", and it can be true or false')):
            ended = self.lowered(name, value)
            self.assertNotIn(ended.status, (0, 4), ended.out)
            self.assertRegex(ended.err.replace("\\", ""), word)

    # what a module sees

    def test_arguments(self) -> None:
        """the module sees its arguments, the first as the config has it"""
        ended = self.host.run(self.wish("echo", "one", "-x", "two words", "--"))
        self.assertEqual((ended.status, ended.out), (0, "/echo.wasm\none\n-x\ntwo words\n--\n"), ended.err)

    def test_environment(self) -> None:
        """the module sees the environment of its container"""
        ended = self.host.run(self.wish("environment", entries=("COLOUR=red = blue", "EMPTY=")))
        lines = ended.out.splitlines()
        self.assertIn("COLOUR=red = blue", lines, ended.err)
        self.assertIn("EMPTY=", lines)
        self.assertTrue(any(line.startswith("PATH=") for line in lines))
        self.assertFalse(any(line.startswith("LD_LIBRARY_PATH=") for line in lines))

    def test_memory(self) -> None:
        """the memory of a module grows to the limit of its container, and to 256 pages without one"""
        if self.setting.race:
            self.skipTest("a runtime that looks for data races takes more memory itself")
        self.assertEqual(self.host.run(self.wish("grow")).status, 256 - 100)
        limited = self.host.run(self.wish("grow", memory=12 * MEBIBYTE))
        self.assertEqual(limited.status, 12 * 16 - 100, limited.err)

    # a container that runs

    def test_pause_and_resume(self) -> None:
        """a container writes while it runs, stands still while it is paused, and goes on"""
        container = self.begin("counts")
        self.assertEqual(self.host.status(container), "running")
        self.host.pause(container)
        self.assertEqual(self.host.status(container), "paused")
        pid = self.host.pid(container)
        ticks = processor_time(pid)
        time.sleep(0.3)
        self.assertEqual(processor_time(pid), ticks)
        self.host.resume(container)
        until("it goes on", lambda: processor_time(pid) > ticks)
        self.end(container)

    def test_stop(self) -> None:
        """SIGTERM ends a container in under a second, with the status 143"""
        self.end(self.begin("counts"))

    def test_stop_at_once(self) -> None:
        """SIGTERM ends a container that has only just begun"""
        container = self.host.begin(self.wish("counts"))
        self.end(container)

    def test_limits_and_rights(self) -> None:
        """the process is nobody, without rights, network and files, in a cgroup with the container's limit"""
        container = self.begin("counts", memory=64 * MEBIBYTE)
        pid = self.host.pid(container)
        self.check_rights(pid)
        self.check_cgroup(pid)
        self.check_namespaces(pid)
        self.end(container)

    def check_rights(self, pid: int) -> None:
        """Checks the identity of a process and its open files."""
        lines = Path(f"/proc/{pid}/status").read_text().splitlines()
        status = {key: value.split() for key, _, value in (line.partition(":") for line in lines)}
        self.assertEqual((status["Uid"], status["Gid"], status["Groups"]), (["65534"] * 4, ["65534"] * 4, []))
        for rights in ("CapInh", "CapPrm", "CapEff", "CapBnd", "CapAmb"):
            self.assertEqual(int(status[rights][0], 16), 0, rights)
        self.assertEqual(status["NoNewPrivs"], ["1"])
        # A file below 3 is a stream. Go's runtime has its own, of the kernel's, to be told of events.
        others = [path.readlink() for path in Path(f"/proc/{pid}/fd").iterdir() if int(path.name) > 2]
        self.assertEqual([path for path in others if not str(path).startswith(("anon_inode:", "pipe:"))], [])

    def check_cgroup(self, pid: int) -> None:
        """Checks the limit of memory of a process."""
        for line in Path(f"/proc/{pid}/cgroup").read_text().splitlines():
            _, names, path = line.split(":", 2)
            if names == "memory":
                limit = Path(f"/sys/fs/cgroup/memory{path}/memory.limit_in_bytes")
            elif names == "" and Path(f"/sys/fs/cgroup{path}/memory.max").exists():
                limit = Path(f"/sys/fs/cgroup{path}/memory.max")
            else:
                continue
            self.assertIn(self.host.cgroup, path)
            self.assertEqual(int(limit.read_text()), 64 * MEBIBYTE)
            return
        self.fail("the process has no cgroup of memory")

    def check_namespaces(self, pid: int) -> None:
        """Checks what a process sees of the system."""
        for kind in ("mnt", "pid", "net", "ipc", "uts"):
            self.assertNotEqual(Path(f"/proc/{pid}/ns/{kind}").readlink(), Path(f"/proc/self/ns/{kind}").readlink(), kind)
        interfaces = Path(f"/proc/{pid}/net/dev").read_text()
        self.assertNotIn("eth", interfaces)
        routes = Path(f"/proc/{pid}/net/route").read_text().splitlines()
        self.assertEqual(routes[1:], [])
        mounts = [line.split() for line in Path(f"/proc/{pid}/mounts").read_text().splitlines()]
        root = next(options.split(",") for _, place, _, options, *_ in mounts if place == "/")
        self.assertIn("ro", root)
        seen = {path.name for path in Path(f"/proc/{pid}/root").iterdir()}
        self.assertEqual(seen - {"counts.wasm", ".feulgama", "lib64", "dev", "proc"}, set())

    # other programs, and images of somebody who means harm

    def test_native_program(self) -> None:
        """another program runs as without feulgama-oci"""
        ended = self.host.run(self.wish("native"))
        self.assertEqual(ended.status, 0, ended.err)
        self.assertTrue(ended.out.startswith("Usage: feulgama-oci"))

    def refused(self, name: str, word: str) -> None:
        """Checks that an image is refused for a reason, soon, and that nothing of it ran."""
        ended: Ended = self.host.run(self.wish(name))
        self.assertNotEqual(ended.status, 0)
        self.assertEqual(ended.out, "")
        self.assertIn(word, ended.err)
        self.assertLess(ended.seconds, 10.0)

    def test_link_out(self) -> None:
        """a link out of the image leads nowhere"""
        self.refused("link-out", "no such file")

    def test_link_absolute(self) -> None:
        """a link to a file of the machine leads nowhere"""
        self.refused("link-absolute", "no such file")

    def test_link_inside(self) -> None:
        """a link inside the image is followed"""
        self.assertEqual(self.host.run(self.wish("link-in")).status, 7)

    def test_fifo(self) -> None:
        """a FIFO in the place of the module is refused, and holds nothing up"""
        self.refused("fifo", "/m.wasm is a FIFO")

    def test_device(self) -> None:
        """a device in the place of the module is refused"""
        self.refused("device", "/m.wasm is a device")

    def test_folder(self) -> None:
        """a directory in the place of the module is refused"""
        self.refused("folder", "/m.wasm is a directory")

    def test_huge_module(self) -> None:
        """a module of more bytes than a module may have is refused"""
        self.refused("huge", "more than 262144 bytes")

    def test_loader(self) -> None:
        """no library of an image is loaded: not by LD_PRELOAD, not by /etc/ld.so.preload, not by its name"""
        ended = self.host.run(self.wish("loader"))
        self.assertEqual((ended.status, ended.out), (0, "hello, feulgama\n"), ended.err)


class UnderRunc(Containers):
    """runc alone."""

    kind = Runc
    host: ClassVar[Runc]

    def test_signal_right_after_the_start(self) -> None:
        """no SIGTERM is lost that comes right after the start, 30 times"""
        for _ in range(30):
            container = self.host.begin(self.wish("counts"))
            os.kill(self.host.pid(container), signal.SIGTERM)
            self.assertEqual(self.host.ended(container), 143)
            self.host.remove(container)


class UnderEngine(Containers):
    """What podman and docker can do more."""

    host: ClassVar[Engine]

    def test_start_again(self) -> None:
        """a container that was stopped starts again"""
        container = self.begin("counts")
        self.assertEqual(self.host.end(container), 143)
        self.host.must("start", container)
        until("it writes again", lambda: self.host.logs(container) == "begun\nbegun\n")
        self.end(container)

    def test_module_in_a_volume(self) -> None:
        """the module may be in a volume, whether that is a folder or the one file"""
        folder = self.setting.machine.folder / "volume"
        folder.mkdir(exist_ok=True)
        (folder / "seven.wasm").write_bytes(self.setting.images.modules["exit7"])
        for options in (("--entrypoint=/v/seven.wasm", f"--volume={folder}:/v:ro"),
                        ("--entrypoint=/one.wasm", f"--volume={folder}/seven.wasm:/one.wasm:ro")):
            ended = self.host.run(Wish(self.setting.images.all["hello"], options=options))
            self.assertEqual((ended.status, ended.out), (7, ""), ended.err)

    def test_exec(self) -> None:
        """there is nothing to execute in a container of a module"""
        container = self.begin("counts")
        ended = command(self.host.words("exec", container, "/counts.wasm"), self.host.environment)
        self.assertNotEqual(ended.status, 0)
        self.end(container)


class UnderPodman(UnderEngine):
    """podman."""

    kind = Podman


class UnderDocker(UnderEngine):
    """docker."""

    kind = Docker


class UnderContainerd(Containers):
    """containerd."""

    kind = Containerd


HOSTS = (UnderRunc, UnderPodman, UnderDocker, UnderContainerd)
