"""What has to be there before a test begins: a namespace of mounts, the built runtime, and the images."""
from __future__ import annotations

import os
import shutil
import sys
from pathlib import Path

from .host import Setting
from .images import TOP, Images, load_tool
from .lowered import put_command
from .machine import Machine, missing, must
from .source import CLIENT, TOOLS

PROGRAM = TOP / "crates/wasm_shim/out/wasm_shim"
INSIDE = "FEULGAMA_TEST_INSIDE"
EMPTIED = (
    "/run", "/usr/local/bin", "/var/lib/containers", "/var/lib/containerd", "/var/lib/docker", "/var/lib/cni", "/etc/docker",
)


def can_run(program: Path) -> bool:
    """Whether the tests can be run at all; standard error says why not."""
    absent = missing([*TOOLS, "gcc"])
    if not program.is_file():
        print(f"{program} is not there: tools/shim --version builds it, and --program names another", file=sys.stderr)
    elif os.geteuid() != 0:
        print("these tests make containers, mounts and cgroups, and need to be root", file=sys.stderr)
    elif absent:
        print(f"To build: apt-get install -y --no-install-recommends {' '.join(absent)}", file=sys.stderr)
    else:
        return True
    return False


def enter(*more: str) -> None:
    """Goes into a mount namespace of its own, and others that unshare has options for, and empties what hosts share."""
    if os.environ.get(INSIDE) is None:
        words = ["unshare", "--mount", "--propagation", "private", *more, sys.executable, *sys.argv]
        os.execvpe(words[0], words, {**os.environ, INSIDE: "1"})
    for place in EMPTIED:
        if Path(place).is_dir():
            must(["mount", "-t", "tmpfs", "-o", "mode=755", "tmpfs", place])


def prepare(machine: Machine, program: Path, race: bool) -> Setting:
    """Builds feulgama-oci beside the program, and makes the images."""
    beside = machine.folder / "bin"
    beside.mkdir()
    shim = beside / "wasm-shim"
    shutil.copy(program, shim)
    shim.chmod(0o755)
    put_command(beside)
    runtime, native = beside / "feulgama-oci", beside / "native"
    must([CLIENT / "build", native], seconds=600)
    must([CLIENT / "build", *(["--race"] if race else []), runtime], seconds=600)
    work = machine.folder / "images"
    work.mkdir()
    images = Images(shim, native, work)
    images.make()
    return Setting(machine, images, load_tool(), runtime, shim, race)
