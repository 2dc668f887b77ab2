"""The units of packaging/systemd: systemd accepts them, finds nothing exposed, and a socket starts a shim for a connection."""
from __future__ import annotations

import json
import os
import re
import shutil
import signal
import socket
import subprocess
import time
from collections.abc import Iterator
from contextlib import contextmanager
from pathlib import Path

import pytest

from suite.places import TOP, built

pytestmark = pytest.mark.program
UNITS = TOP / "packaging/systemd"
SERVICES = ["feulgama@.service", "feulgama-fifo.service"]
FIRST_RUN = TOP / "examples/first_run.jsonl"
# The most that `systemd-analyze security` may find, of 10: it calls up to 2 safe.
EXPOSED = 1.0
needs_systemd = pytest.mark.skipif(shutil.which("systemd-socket-activate") is None, reason="systemd is not installed")


@pytest.fixture
def units(tmp_path: Path) -> Path:
    """The units, over the program that is tested."""
    for unit in UNITS.iterdir():
        (tmp_path / unit.name).write_text(unit.read_text().replace("/usr/bin/wasm-shim", str(built())))
    return tmp_path


@needs_systemd
def test_systemd_accepts_them(units: Path) -> None:
    # The words of FIFOs have colons, which are no paths.
    ran = subprocess.run(["systemd-analyze", "verify", *map(str, sorted(units.iterdir()))], capture_output=True, text=True)
    assert (ran.returncode, ran.stderr) == (0, "")


@needs_systemd
@pytest.mark.parametrize("service", SERVICES)
def test_nothing_is_exposed(service: str) -> None:
    words = ["systemd-analyze", "security", "--offline=yes", str(UNITS / service)]
    ran = subprocess.run(words, capture_output=True, text=True, check=True)
    level = re.search(r"Overall exposure level for \S+: ([\d.]+)", ran.stdout)
    assert level is not None and float(level[1]) <= EXPOSED


@contextmanager
def activated(path: Path, words: list[str]) -> Iterator[None]:
    """A program that is started for each connection to a socket, as by the unit with Accept=yes."""
    process = subprocess.Popen(["systemd-socket-activate", "--accept", "--inetd", f"--listen={path}", *words],
                               stdout=subprocess.DEVNULL, stderr=subprocess.DEVNULL, start_new_session=True)
    try:
        until = time.monotonic() + 20
        while not path.exists():
            assert time.monotonic() < until
            time.sleep(0.01)
        yield
    finally:
        os.killpg(process.pid, signal.SIGKILL)
        process.wait()


def connected(path: Path) -> socket.socket:
    """A connection to a socket that is there. For a moment after it is made it is not listened to."""
    until = time.monotonic() + 20
    while True:
        host = socket.socket(socket.AF_UNIX)
        host.settimeout(60)
        try:
            host.connect(str(path))
            return host
        except ConnectionRefusedError:
            host.close()
            assert time.monotonic() < until
            time.sleep(0.01)


def words_of(service: str) -> list[str]:
    """The command of a service."""
    line = re.search(r"^ExecStart=(.*)$", (UNITS / service).read_text(), re.MULTILINE)
    assert line is not None
    return [word.replace("/usr/bin/wasm-shim", str(built())) for word in line[1].split()]


@needs_systemd
def test_each_connection_has_a_shim(tmp_path: Path) -> None:
    path = tmp_path / "shim.sock"
    with activated(path, words_of("feulgama@.service")):
        for _ in range(2):
            with connected(path) as host:
                host.sendall(FIRST_RUN.read_bytes())
                host.shutdown(socket.SHUT_WR)
                replies = host.makefile("rb").read().splitlines()
            # A second shim, which knows nothing of the first, has stored the module too.
            assert json.loads(replies[0])["ok"]
            assert json.loads(replies[-1]) == {"cause": "exit", "exit": 7, "id": "a", "n": 2, "ok": True, "status": "stopped"}


def test_it_needs_no_right(tmp_path: Path) -> None:
    """As a user that owns nothing, without capabilities and with no_new_privs, over descriptors that are inherited."""
    if os.geteuid() != 0 or shutil.which("setpriv") is None:
        pytest.skip("it takes root and setpriv to become another user")
    os.chmod(tmp_path, 0o755)
    program = tmp_path / "wasm-shim"
    shutil.copy(built(), program)
    program.chmod(0o755)
    words = ["setpriv", "--reuid=65534", "--regid=65534", "--clear-groups", "--no-new-privs", "--bounding-set=-all",
             str(program), "serve", "--caller", "/dev/fd/3:/dev/fd/4"]
    lines, replies = os.pipe(), os.pipe()
    os.write(lines[1], FIRST_RUN.read_bytes())
    os.close(lines[1])
    # The program opens the pipes once more by their names, as that user.
    for fd in (lines[0], replies[1]):
        os.fchown(fd, 65534, 65534)
    high = {3: os.dup2(lines[0], 103), 4: os.dup2(replies[1], 104)}
    command = " ".join(words) + " 3<&103 4>&104 103<&- 104>&-"
    ran = subprocess.run(["bash", "-c", command], pass_fds=list(high.values()), stdin=subprocess.DEVNULL, capture_output=True,
                         text=True)
    for fd in (lines[0], replies[1], *high.values()):
        os.close(fd)
    with os.fdopen(replies[0], "rb") as told:
        assert json.loads(told.read().splitlines()[-1])["exit"] == 7
    assert (ran.returncode, ran.stderr) == (0, "")
