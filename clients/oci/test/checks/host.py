"""What the tests ask of a container host."""
from __future__ import annotations

import os
from abc import ABC, abstractmethod
from collections.abc import Sequence
from dataclasses import dataclass
from pathlib import Path
from typing import Any, ClassVar

from .images import Images, Picture
from .machine import Ended, Machine, command, until


@dataclass
class Setting:
    """What all hosts of a run share."""

    machine: Machine
    images: Images
    tool: Any  # tools/image, as a module
    runtime: Path
    program: Path
    race: bool = False  # whether the runtime looks for data races

    @property
    def environment(self) -> dict[str, str]:
        """The environment of daemons and clients: nothing of the user's own."""
        return {"PATH": os.environ["PATH"], "HOME": str(self.machine.folder), "TMPDIR": str(self.machine.folder)}


@dataclass(frozen=True)
class Wish:
    """A container that is wanted."""

    picture: Picture
    words: tuple[str, ...] = ()  # arguments in place of those of the image
    memory: int | None = None  # the limit, in bytes
    entries: tuple[str, ...] = ()  # of the environment
    options: tuple[str, ...] = ()  # of podman's and docker's run
    annotation: str = ""  # NAME=VALUE


class Host(ABC):
    """A container host with feulgama-oci as its runtime, in a folder of the run."""

    name: ClassVar[str]
    tools: ClassVar[tuple[str, ...]]

    def __init__(self, setting: Setting) -> None:
        self.setting = setting
        self.folder = setting.machine.folder / self.name
        self.cgroup = f"{setting.machine.name}-{self.name}"
        self.containers = 0

    def fresh(self) -> str:
        """A name for one more container."""
        self.containers += 1
        return f"{self.name}-{self.containers}"

    def archive(self, picture: Picture) -> Path:
        """The file of an image."""
        file = self.setting.machine.folder / f"{picture.name}.tar"
        if not file.exists():
            file.write_bytes(picture.archive(self.setting.tool))
        return file

    def start(self) -> None:
        """Starts the host, with all images."""
        self.folder.mkdir()

    def answers(self, words: Sequence[str]) -> None:
        """Waits until a client has an answer from the daemon. Raises RuntimeError with the daemon's log otherwise."""
        try:
            until("an answer", lambda: command(words, self.setting.environment).status == 0)
        except TimeoutError as fault:
            raise RuntimeError((self.folder / "log").read_text()[-2000:]) from fault

    def stop(self) -> None:
        """Stops the host."""

    def has_annotations(self) -> bool:
        """Whether a container can be given annotations."""
        return True

    @abstractmethod
    def run(self, wish: Wish) -> Ended:
        """Runs a container to its end, and removes it."""

    @abstractmethod
    def begin(self, wish: Wish) -> str:
        """Starts a container, and answers its name."""

    @abstractmethod
    def logs(self, container: str) -> str:
        """What the container has written to standard output so far."""

    @abstractmethod
    def pause(self, container: str) -> None:
        """Pauses a container."""

    @abstractmethod
    def resume(self, container: str) -> None:
        """Lets it go on."""

    @abstractmethod
    def status(self, container: str) -> str:
        """`running`, `paused` or another word."""

    @abstractmethod
    def pid(self, container: str) -> int:
        """The first process of a container, by its number on the host."""

    @abstractmethod
    def end(self, container: str) -> int:
        """Stops a container by SIGTERM, as the host's users do, and answers its exit status."""

    @abstractmethod
    def remove(self, container: str) -> None:
        """Removes a container that has ended."""
