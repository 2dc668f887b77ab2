"""The ways in to containers that the containerd shim leaves for a debugger: a socket in the folder of each."""
from __future__ import annotations

import os
import socket
from dataclasses import dataclass
from pathlib import Path

from feulgama.errors import FeulgamaError

STATE = Path("/run/containerd")
TASKS, NAME = "io.containerd.runtime.v2.task", "attach.sock"


class NoContainerError(FeulgamaError):
    """There is no such container, or a debugger cannot get in."""


@dataclass(frozen=True, slots=True)
class Door:
    """The door of a container, in a namespace of containerd."""
    namespace: str
    container: str
    folder: Path

    def knock(self, seconds: float) -> socket.socket:
        """A connection, which may take this many seconds for each answer. It is made by the folder's descriptor, since the
        path of a folder may be longer than a socket's name can be. Raises NoContainerError."""
        connection = socket.socket(socket.AF_UNIX, socket.SOCK_STREAM)
        try:
            at = os.open(self.folder, os.O_PATH | os.O_DIRECTORY | os.O_CLOEXEC)
            try:
                connection.settimeout(seconds)
                connection.connect(f"/proc/self/fd/{at}/{NAME}")
            finally:
                os.close(at)
        except OSError as error:
            connection.close()
            raise NoContainerError(f"{self.container}: {self.folder / NAME}: {error.strerror or error}") from error
        return connection


def containers(state: Path, namespace: str | None) -> list[Door]:
    """The containers in the folder that a containerd keeps the states of tasks in. Raises NoContainerError."""
    tasks = state / TASKS
    try:
        return [Door(at.parent.name, at.name, at) for at in sorted(tasks.glob(f"{namespace or '*'}/*")) if at.is_dir()]
    except PermissionError as error:
        raise NoContainerError(f"{tasks}: only root can attach to a container") from error


def find(container: str, namespace: str | None = None, state: Path = STATE) -> Door:
    """The door of a container that the name, or the beginning of one name alone, says. Raises NoContainerError."""
    if not os.access(state / TASKS, os.R_OK | os.X_OK) and os.geteuid() != 0:
        raise NoContainerError(f"{state / TASKS}: only root can attach to a container")
    all_ = containers(state, namespace)
    found = [door for door in all_ if door.container == container] or \
        [door for door in all_ if container and door.container.startswith(container)]
    where = f"in {state / TASKS}" + (f", namespace {namespace}" if namespace else "")
    if not found:
        there = ", ".join(door.container for door in all_)
        raise NoContainerError(f"no container {container} is {where}" + (f"; there are {there}" if there else ""))
    if len(found) > 1:
        told = ", ".join(f"{door.namespace}/{door.container}" for door in found)
        raise NoContainerError(f"{container} is more than one container: {told}")
    if not (found[0].folder / NAME).is_socket():
        raise NoContainerError(f"{found[0].container} is no container of a module under io.containerd.feulgama.v1: "
                               f"{found[0].folder} has no {NAME}")
    return found[0]
