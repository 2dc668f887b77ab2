"""containerd of the run, with the shim in its PATH, and its client ctr."""
from __future__ import annotations

import hashlib
import json
import re
import shutil
import subprocess
import time
from collections.abc import Sequence
from contextlib import suppress
from dataclasses import dataclass, field
from pathlib import Path
from typing import Any

from checks.images import TOP, Images, Picture
from checks.machine import Ended, Machine, command, must, until

RUNTIME = "io.containerd.feulgama.v1"
OTHERS = ", ".join(f'"io.containerd.{name}"' for name in (
    "snapshotter.v1.btrfs", "snapshotter.v1.zfs", "snapshotter.v1.devmapper", "snapshotter.v1.aufs", "internal.v1.opt"))
CONFIG = """version = 2
root = "{at}/root"
state = "{at}/state"
disabled_plugins = [{disabled}]
[grpc]
  address = "{at}/socket"
[ttrpc]
  address = "{at}/socket.ttrpc"
"""
# restrict_oom_score_adj: root in a container has no right to lower it.
CRI = """[plugins."io.containerd.grpc.v1.cri"]
  sandbox_image = "{sandbox}"
  restrict_oom_score_adj = true
[plugins."io.containerd.grpc.v1.cri".containerd.runtimes.runc]
  runtime_type = "io.containerd.runc.v2"
"""
EXAMPLE = TOP / "examples/kubernetes/containerd.toml"


@dataclass
class Setting:
    """What all checks of a run share."""

    machine: Machine
    images: Images
    tool: Any  # tools/image, as a module
    folder: Path  # of the programs: the shim, wasm-shim, cri-call, feulgama-oci and native
    race: bool
    lines: bool  # whether a debugger shows those of C
    daemon: Daemon = field(init=False)


class Daemon:
    """A containerd in a folder of the run."""

    def __init__(self, setting: Setting, name: str, cri: bool = False) -> None:
        self.setting = setting
        self.at = setting.machine.folder / name
        self.cgroup = f"{setting.machine.name}-{name}"
        self.cri = cri
        self.names = 0
        self.process: subprocess.Popen[bytes]
        self.at.mkdir()
        path = f"{setting.folder}:/usr/sbin:/usr/bin:/sbin:/bin"
        self.environment = {"PATH": path, "HOME": str(self.at), "TMPDIR": str(self.at)}
        disabled = OTHERS if cri else f'"io.containerd.grpc.v1.cri", {OTHERS}'
        text = CONFIG.format(at=self.at, disabled=disabled)
        if cri:
            text += CRI.format(sandbox=setting.images.all["hello"].reference)
            # The part that users are told to add, without the line of the version.
            text += EXAMPLE.read_text().partition("version = 2\n")[2]
        (self.at / "config.toml").write_text(text)

    def start(self) -> None:
        """Starts it, and waits until it answers. Raises RuntimeError with its log otherwise."""
        program = shutil.which("containerd") or "containerd"
        words = [program, "--config", f"{self.at}/config.toml"]
        self.process = self.setting.machine.daemon(words, self.at / "log", self.environment)
        try:
            until("an answer", lambda: self.ctr("version").status == 0)
        except TimeoutError as fault:
            raise RuntimeError((self.at / "log").read_text()[-2000:]) from fault

    def end(self, hard: bool = False) -> None:
        """Ends it, by SIGKILL if that is asked for. Its containers run on."""
        self.setting.machine.daemons.remove(self.process)
        if hard:
            self.process.kill()
        else:
            self.process.terminate()
        self.process.wait(30)

    def words(self, *words: str) -> list[str]:
        """The words of a ctr command."""
        return ["ctr", f"--address={self.at}/socket", "--connect-timeout=5s", *words]

    def ctr(self, *words: str, seconds: float = 60.0) -> Ended:
        """What becomes of a ctr command."""
        return command(self.words(*words), self.environment, seconds)

    def must(self, *words: str) -> str:
        """What a ctr command writes. Raises RuntimeError if it fails."""
        return must(self.words(*words), self.environment)

    def load(self, *pictures: Picture, words: Sequence[str] = ()) -> None:
        """Imports images."""
        for picture in pictures:
            file = self.at / "image.tar"
            file.write_bytes(picture.archive(self.setting.tool))
            self.must("images", "import", *words, str(file))

    def fresh(self) -> str:
        """A name for one more container."""
        self.names += 1
        return f"c{self.names}"

    def options(self, name: str, runtime: str = RUNTIME) -> list[str]:
        """The options of each container."""
        return [f"--runtime={runtime}", f"--cgroup=/{self.cgroup}/{name}"]

    def run(self, image: str, *words: str, options: Sequence[str] = (), name: str = "") -> Ended:
        """Runs a container to its end, and removes it. Words are those of the program, its name too."""
        name = name or self.fresh()
        reference = self.setting.images.all[image].reference
        ended = self.ctr("run", "--rm", *self.options(name), *options, reference, name, *words)
        if ended.status:
            self.ctr("containers", "delete", name)  # what could not be made stays
        return ended

    def begin(self, image: str, *words: str, options: Sequence[str] = (), name: str = "") -> str:
        """Starts a container with a file for its output, and answers its name."""
        name = name or self.fresh()
        log = f"--log-uri=file://{self.log(name)}"
        self.must("run", "-d", *([] if any("--log-uri" in word for word in options) else [log]), *self.options(name), *options,
                  self.setting.images.all[image].reference, name, *words)
        return name

    def log(self, name: str) -> Path:
        """The file of a container's output."""
        return self.at / f"{name}.log"

    def row(self, name: str) -> list[str]:
        """The row of a container in the list of tasks: its name, its process and its status."""
        rows = [line.split() for line in self.must("tasks", "list").splitlines()]
        return next((row for row in rows if row[0] == name), [])

    def pid(self, name: str) -> int:
        """The process of a container."""
        return int(self.row(name)[1])

    def status(self, name: str) -> str:
        """The status of a container."""
        return self.row(name)[2].lower()

    def kill(self, name: str, signal: str = "SIGTERM") -> None:
        """Sends a signal to a container."""
        self.must("tasks", "kill", f"--signal={signal}", name)

    def remove(self, name: str, seconds: float = 20.0) -> int:
        """Removes a container that ends, and answers its exit status, which ctr says in a line of its log only."""
        until(f"{name} has stopped", lambda: self.status(name) == "stopped", seconds)
        ended = self.ctr("tasks", "delete", name)
        self.must("containers", "delete", name)
        found = re.search(r"exit with non-zero exit code (\d+)", ended.err)
        return int(found[1]) if found else ended.status

    def attach_words(self, *words: str) -> list[str]:
        """The words that start a debugger on a container."""
        program = self.setting.folder / "wasm-shim"
        # The sanitizer of a program that was not proved needs all of the address space.
        memory = ["--memory=0"] if b"AddressSanitizer" in program.read_bytes() else []
        return [f"{self.setting.folder}/feulgama", "--shim", str(program), "attach", *memory, "--state", f"{self.at}/state",
                *words]

    def attach(self, script: str, name: str) -> Ended:
        """What a debugger writes whose user types some lines."""
        file = self.at / "script"
        file.write_text(script)
        # On a busy machine a task that goes back may be paused too late, and is made anew then.
        return command(self.attach_words("--commands", str(file), name), self.environment, 600.0)

    def shims(self) -> list[int]:
        """The shims of this containerd."""
        found = []
        for entry in Path("/proc").iterdir():
            with suppress(OSError):
                if entry.name.isdigit() and f"-address\0{self.at}/socket\0".encode() in (entry / "cmdline").read_bytes():
                    found.append(int(entry.name))
        return found

    def sockets(self, *names: str) -> list[Path]:
        """The sockets of shims of these containers, as containerd's library names them."""
        sums = [hashlib.sha256(f"{self.at}/socket/default/{name}".encode()).hexdigest() for name in names]
        return [path for path in (Path(f"/run/containerd/s/feulgama-{one}") for one in sums) if path.exists()]

    def call_words(self, method: str, **request: object) -> list[str]:
        """The words of a call of a kubelet."""
        return [f"{self.setting.folder}/cri-call", f"{self.at}/socket", method, json.dumps(request)]

    def call(self, method: str, **request: object) -> Any:
        """The answer to a call of a kubelet. Raises RuntimeError if it fails."""
        return json.loads(must(self.call_words(method, **request), self.environment))


class Events:
    """The events of a containerd, as `ctr events` writes them, from now on."""

    def __init__(self, daemon: Daemon) -> None:
        daemon.names += 1
        self.file = daemon.at / f"events-{daemon.names}"
        with self.file.open("wb") as file:
            self.process = subprocess.Popen(daemon.words("events"), stdin=subprocess.DEVNULL, stdout=file,
                                            stderr=subprocess.DEVNULL, env=daemon.environment)
        # Nobody says when it listens. Another event, of a label, does.
        name = daemon.setting.images.all["hello"].reference
        last = time.monotonic() + 20
        while b"/images/update" not in self.file.read_bytes():
            if time.monotonic() > last:
                raise TimeoutError("no event comes")
            daemon.must("images", "label", name, f"mark={time.monotonic_ns()}")

    def of(self, name: str) -> list[tuple[str, dict[str, Any]]]:
        """The topics and events of a container, in their order."""
        found = []
        for line in self.file.read_text().splitlines():
            _, _, rest = line.partition(" /tasks/")
            topic, _, text = rest.partition(" ")
            if topic and json.loads(text).get("container_id") == name:
                found.append((topic, json.loads(text)))
        return found

    def topics(self, name: str) -> list[str]:
        """The topics of a container."""
        return [topic for topic, _ in self.of(name)]

    def end(self) -> None:
        """Stops to listen."""
        self.process.kill()
        self.process.wait()
