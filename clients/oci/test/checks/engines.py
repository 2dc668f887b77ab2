"""podman and docker, whose clients have the same words."""
from __future__ import annotations

import json
import shutil
from abc import abstractmethod
from pathlib import Path

from .host import Host, Wish
from .machine import Ended, command, must


class Engine(Host):
    """What podman and docker have in common."""

    @abstractmethod
    def words(self, *words: str) -> list[str]:
        """The words of a command of the client."""

    @abstractmethod
    def options(self) -> list[str]:
        """Options of each container."""

    @property
    def environment(self) -> dict[str, str]:
        """The environment of the client."""
        return self.setting.environment

    def must(self, *words: str) -> str:
        """What a command of the client writes. Raises RuntimeError if it fails."""
        return must(self.words(*words), self.environment)

    def load(self) -> None:
        """Loads all images."""
        for picture in self.setting.images.all.values():
            self.must("load", "-q", "-i", str(self.archive(picture)))

    def has_annotations(self) -> bool:
        return "--annotation" in command(self.words("run", "--help"), self.environment).out

    def asked(self, wish: Wish) -> list[str]:
        """The words for a container."""
        limit = [f"--memory={wish.memory}"] if wish.memory else []
        entries = [f"--env={entry}" for entry in wish.entries]
        annotations = [f"--annotation={wish.annotation}"] if wish.annotation else []
        return [*self.options(), *limit, *entries, *annotations, *wish.options, wish.picture.reference, *wish.words]

    def run(self, wish: Wish) -> Ended:
        return command(self.words("run", "--rm", *self.asked(wish)), self.environment)

    def begin(self, wish: Wish) -> str:
        name = self.fresh()
        self.must("run", "-d", "--name", name, *self.asked(wish))
        return name

    def logs(self, container: str) -> str:
        return self.must("logs", container)

    def pause(self, container: str) -> None:
        self.must("pause", container)

    def resume(self, container: str) -> None:
        self.must("unpause", container)

    def inspect(self, container: str, what: str) -> str:
        """A part of what is known of a container."""
        return self.must("inspect", "-f", "{{.State." + what + "}}", container).strip()

    def status(self, container: str) -> str:
        return self.inspect(container, "Status")

    def pid(self, container: str) -> int:
        return int(self.inspect(container, "Pid"))

    def end(self, container: str) -> int:
        self.must("stop", container)
        return int(self.inspect(container, "ExitCode"))

    def remove(self, container: str) -> None:
        self.must("rm", container)


# A container has no network, and no more files and processes than a machine without CAP_SYS_RESOURCE allows.
PODMAN_CONFIG = """[containers]
default_ulimits = ["nofile=1024:1024", "nproc=1024:1024"]
netns = "none"
log_driver = "k8s-file"
[engine]
cgroup_manager = "cgroupfs"
events_logger = "none"
lock_type = "file"
runtime = "feulgama-oci"
[engine.runtimes]
feulgama-oci = ["{runtime}"]
"""


class Podman(Engine):
    """podman has no daemon: each command is a process of its own, and conmon keeps each container."""

    name = "podman"
    tools = ("podman", "conmon", "runc")

    @property
    def environment(self) -> dict[str, str]:
        return {**self.setting.environment, "CONTAINERS_CONF": str(self.folder / "containers.conf")}

    def start(self) -> None:
        super().start()
        (self.folder / "containers.conf").write_text(PODMAN_CONFIG.format(runtime=self.setting.runtime))
        self.load()

    def words(self, *words: str) -> list[str]:
        places = ("root", "runroot", "tmpdir")
        return ["podman", *(f"--{place}={self.folder / place}" for place in places), *words]

    def options(self) -> list[str]:
        return [f"--cgroup-parent=/{self.cgroup}"]


# The client of the same package as the daemon, if another one is before it in PATH.
DOCKER = "/usr/bin/docker"


class Docker(Engine):
    """dockerd starts a containerd of its own. It has a network namespace of its own, with docker's usual bridge."""

    name = "docker"
    tools = ("dockerd", "docker", "runc", "containerd", "iptables")

    def start(self) -> None:
        super().start()
        at = self.folder
        # The daemon's key has no option of the command line.
        (at / "daemon.json").write_text(json.dumps({"deprecated-key-path": f"{at}/key.json"}))
        words = [
            "unshare", "--net", "dockerd", f"--config-file={at}/daemon.json", f"--host=unix://{at}/socket",
            f"--data-root={at}/data", f"--exec-root={at}/exec", f"--pidfile={at}/pid", "--iptables=false", "--ip6tables=false",
            f"--cgroup-parent=/{self.cgroup}", f"--add-runtime=feulgama={self.setting.runtime}"]
        self.setting.machine.daemon(words, at / "log", self.environment)
        self.answers(self.words("version"))
        self.load()

    def stop(self) -> None:
        self.setting.machine.end_daemons()

    def words(self, *words: str) -> list[str]:
        client = DOCKER if Path(DOCKER).exists() else str(shutil.which("docker"))
        return [client, f"--host=unix://{self.folder}/socket", *words]

    def options(self) -> list[str]:
        return ["--runtime=feulgama"]
