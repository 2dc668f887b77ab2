"""The machine of a test: a folder of its own, the processes that are started there, and what is left at the end."""
from __future__ import annotations

import ctypes
import os
import shutil
import signal
import subprocess
import tempfile
import time
from collections.abc import Callable, Iterator, Sequence
from dataclasses import dataclass, field
from pathlib import Path

PR_SET_CHILD_SUBREAPER = 36
CGROUPS = Path("/sys/fs/cgroup")
SECONDS = 60.0

# What brings each command, in Debian.
PACKAGES = {
    "runc": "runc", "podman": "podman", "conmon": "podman", "dockerd": "docker.io", "docker": "docker.io",
    "containerd": "containerd", "ctr": "containerd", "containerd-shim-runc-v2": "containerd", "go": "golang-go",
    "gofmt": "golang-go", "gcc": "gcc", "ip": "iproute2", "nsenter": "util-linux", "iptables": "iptables", "xxd": "xxd",
    "/usr/share/gocode/src/golang.org/x/sys/unix": "golang-golang-x-sys-dev",
    "/usr/share/gocode/src/github.com/opencontainers/runtime-spec": "golang-github-opencontainers-specs-dev",
}


@dataclass(frozen=True)
class Ended:
    """How a command ended."""

    status: int
    out: str
    err: str
    seconds: float


def missing(tools: Sequence[str]) -> list[str]:
    """The packages of the tools that are not there."""
    return sorted({PACKAGES[tool] for tool in tools if shutil.which(tool) is None and not Path(tool).is_dir()})


def command(words: Sequence[str | Path], environment: dict[str, str] | None = None, seconds: float = SECONDS) -> Ended:
    """Runs a command to its end. Raises subprocess.TimeoutExpired if that takes too long."""
    began = time.monotonic()
    ended = subprocess.run(words, stdin=subprocess.DEVNULL, capture_output=True, env=environment, timeout=seconds)
    return Ended(ended.returncode, ended.stdout.decode(errors="replace"), ended.stderr.decode(errors="replace"),
                 time.monotonic() - began)


def must(words: Sequence[str | Path], environment: dict[str, str] | None = None, seconds: float = SECONDS) -> str:
    """What a command writes to standard output. Raises RuntimeError if it fails."""
    ended = command(words, environment, seconds)
    if ended.status:
        raise RuntimeError(f"{' '.join(map(str, words))} ended with status {ended.status}: {ended.err or ended.out}")
    return ended.out


def until(what: str, is_so: Callable[[], bool], seconds: float = 20.0) -> None:
    """Waits until something is so. Raises TimeoutError if it is not in time."""
    last = time.monotonic() + seconds
    while not is_so():
        if time.monotonic() > last:
            raise TimeoutError(f"{what}: not in {seconds} s")
        time.sleep(0.02)


@dataclass
class Machine:
    """What a run of the tests has on the machine. Its name is in its folder, its cgroups and its networks."""

    folder: Path = field(default_factory=lambda: Path(tempfile.mkdtemp(prefix="feulgama-oci-")))
    daemons: list[subprocess.Popen[bytes]] = field(default_factory=list)

    def __post_init__(self) -> None:
        # Processes that lose their parent become children of this one, so none is out of sight.
        ctypes.CDLL(None).prctl(PR_SET_CHILD_SUBREAPER, 1, 0, 0, 0)
        self.folder.chmod(0o755)

    @property
    def name(self) -> str:
        """A name that nothing else on the machine has."""
        return self.folder.name

    def daemon(self, words: Sequence[str | Path], log: Path,
               environment: dict[str, str] | None = None) -> subprocess.Popen[bytes]:
        """Starts a process that runs until the end."""
        with log.open("wb") as file:
            started = subprocess.Popen(words, stdin=subprocess.DEVNULL, stdout=file, stderr=file, env=environment,
                                       start_new_session=True)
        self.daemons.append(started)
        return started

    def end_daemons(self) -> None:
        """Ends what daemon started, the newest first. Raises subprocess.TimeoutExpired if one does not end."""
        while self.daemons:
            daemon = self.daemons.pop()
            daemon.send_signal(signal.SIGTERM)
            daemon.wait(30)

    def processes(self) -> dict[int, str]:
        """The processes below this one that do not end within some seconds, with their command lines."""
        last = time.monotonic() + 5.0
        while (found := self._reap()) and time.monotonic() < last:
            time.sleep(0.05)
        return found

    def _reap(self) -> dict[int, str]:
        """Takes the statuses of children that have ended, and answers the others with what is below them."""
        while True:
            try:
                if os.waitpid(-1, os.WNOHANG)[0] == 0:
                    break
            except ChildProcessError:
                break
        return {pid: command_line(pid) for pid in below(os.getpid())}

    def mounts(self) -> list[str]:
        """The places in the folder at which something is mounted, the innermost first."""
        places = [line.split()[4] for line in Path("/proc/self/mountinfo").read_text().splitlines()]
        return sorted((place for place in places if place.startswith(f"{self.folder}/")), reverse=True)

    def cgroups(self) -> list[Path]:
        """The cgroups with the name of this run, the innermost first."""
        found = {path for path in CGROUPS.rglob(f"*{self.name}*") if path.is_dir()}
        inner = {path for top in found for path in top.rglob("*") if path.is_dir()}
        return sorted(found | inner, key=lambda path: len(path.parts), reverse=True)

    def remove(self) -> None:
        """Removes the folder."""
        shutil.rmtree(self.folder)


def parents() -> Iterator[tuple[int, int]]:
    """Each process of the machine, with its parent."""
    for entry in Path("/proc").iterdir():
        if entry.name.isdigit():
            try:
                yield int(entry.name), int((entry / "stat").read_text().rpartition(")")[2].split()[1])
            except OSError:
                continue  # it has ended


def below(top: int) -> list[int]:
    """The processes whose parent, or whose parent's parent and so on, is top."""
    children: dict[int, list[int]] = {}
    for pid, parent in parents():
        children.setdefault(parent, []).append(pid)
    found, wanted = [], [top]
    while wanted:
        inner = children.get(wanted.pop(), [])
        found += inner
        wanted += inner
    return found


def command_line(pid: int) -> str:
    """The words of a process, or nothing if it has ended."""
    try:
        return Path(f"/proc/{pid}/cmdline").read_bytes().replace(b"\0", b" ").decode(errors="replace").strip()
    except OSError:
        return ""


def processor_time(pid: int) -> int:
    """The processor time that a process and those below it have taken, in ticks of the clock."""
    ticks = 0
    for one in (pid, *below(pid)):
        fields = Path(f"/proc/{one}/stat").read_text().rpartition(")")[2].split()
        ticks += int(fields[11]) + int(fields[12])
    return ticks
