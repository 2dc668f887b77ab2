"""containerd of the run, with runc's shim and feulgama-oci in the place of runc."""
from __future__ import annotations

from .host import Host, Wish
from .machine import Ended, command, must, until

CONFIG = """version = 2
root = "{at}/root"
state = "{at}/state"
disabled_plugins = ["io.containerd.grpc.v1.cri", "io.containerd.snapshotter.v1.btrfs", "io.containerd.snapshotter.v1.zfs",
  "io.containerd.snapshotter.v1.devmapper", "io.containerd.snapshotter.v1.aufs", "io.containerd.internal.v1.opt"]
[grpc]
  address = "{at}/socket"
[ttrpc]
  address = "{at}/socket.ttrpc"
"""


class Containerd(Host):
    """Containers by ctr, the client of containerd's package."""

    name = "containerd"
    tools = ("containerd", "ctr", "containerd-shim-runc-v2", "runc")

    def start(self) -> None:
        super().start()
        config = self.folder / "config.toml"
        config.write_text(CONFIG.format(at=self.folder))
        self.setting.machine.daemon(["containerd", "--config", config], self.folder / "log", self.setting.environment)
        self.answers(self.words("version"))
        for picture in self.setting.images.all.values():
            self.must("images", "import", str(self.archive(picture)))

    def stop(self) -> None:
        self.setting.machine.end_daemons()

    def words(self, *words: str) -> list[str]:
        """The words of a ctr command."""
        return ["ctr", f"--address={self.folder}/socket", *words]

    def must(self, *words: str) -> str:
        """What a ctr command writes. Raises RuntimeError if it fails."""
        return must(self.words(*words), self.setting.environment)

    def options(self, wish: Wish, name: str) -> list[str]:
        """Options of a container."""
        limit = [f"--memory-limit={wish.memory}"] if wish.memory else []
        entries = [f"--env={entry}" for entry in wish.entries]
        runtime = [f"--runc-binary={self.setting.runtime}", f"--runc-root={self.folder}/runc"]
        annotations = [f"--annotation={wish.annotation}"] if wish.annotation else []
        return [*runtime, f"--cgroup=/{self.cgroup}/{name}", *limit, *entries, *annotations]

    def run(self, wish: Wish) -> Ended:
        name = self.fresh()
        # Words in place of those of the image are all words, the program's too.
        words = [wish.picture.words[0], *wish.words] if wish.words else []
        options = self.options(wish, name)
        ended = command(self.words("run", "--rm", *options, wish.picture.reference, name, *words), self.setting.environment)
        # What could not be made stays.
        command(self.words("containers", "delete", name), self.setting.environment)
        return ended

    def begin(self, wish: Wish) -> str:
        name = self.fresh()
        log = f"--log-uri=file://{self.folder}/{name}.log"
        self.must("run", "-d", log, *self.options(wish, name), wish.picture.reference, name)
        return name

    def logs(self, container: str) -> str:
        return (self.folder / f"{container}.log").read_text()

    def pause(self, container: str) -> None:
        self.must("tasks", "pause", container)

    def resume(self, container: str) -> None:
        self.must("tasks", "resume", container)

    def row(self, container: str) -> list[str]:
        """The row of a container in the list of tasks: its name, its process and its status."""
        rows = [line.split() for line in self.must("tasks", "list").splitlines()]
        return next(row for row in rows if row[0] == container)

    def status(self, container: str) -> str:
        return self.row(container)[2].lower()

    def pid(self, container: str) -> int:
        return int(self.row(container)[1])

    def end(self, container: str) -> int:
        self.must("tasks", "kill", "--signal=SIGTERM", container)
        until("the task has stopped", lambda: self.status(container) == "stopped")
        ended = command(self.words("tasks", "delete", container), self.setting.environment)
        # ctr says the status in a line of its log only.
        return int(ended.err.rpartition("exit code ")[2].rstrip('"\n') or 0)

    def remove(self, container: str) -> None:
        self.must("containers", "delete", container)
