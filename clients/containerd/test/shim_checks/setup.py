"""What has to be there before a test begins: the built programs and the images."""
from __future__ import annotations

import os
import resource
import shutil
import sys
from pathlib import Path

from checks.images import HEAD, TOP, Images, load_tool
from checks.lowered import put_command
from checks.machine import PACKAGES, Machine, command, missing, must

from .daemon import Setting

CLIENT = TOP / "clients/containerd"
LIBRARY = "/usr/share/gocode/src/github.com/containerd/containerd"
PACKAGES[LIBRARY] = "golang-github-containerd-containerd-dev"
TOOLS = ("go", "gofmt", "gcc", LIBRARY, "containerd", "ctr", "containerd-shim-runc-v2", "runc")
# Another native program, static and as small as the module `hello`.
NATIVE = '#include <unistd.h>\nint main(void) { return write(1, "hello, feulgama\\n", 16) != 16; }\n'
# exit1000 ends with a status that has more than 8 bits; full writes 77,000 bytes; pages begins with 17 pages, as programs
# in Rust do, and exits with that number.
TEXTS = {
    "exit1000": HEAD + "(func $start (type $v) i32.const 1000 call $proc_exit))",
    "full": HEAD + '(data (offset i32.const 0) "\\08\\00\\00\\00\\4c\\04\\00\\00' + "0123456789\\n" * 100 + '''")
  (func $start (type $v) (local $i i32) loop i32.const 1 i32.const 0 i32.const 1 i32.const 2000 call $fd_write drop
  local.get $i i32.const 1 i32.add local.tee $i i32.const 70 i32.lt_u br_if 0 end))''',
    "pages": HEAD.replace("(memory 1)", "(memory 17)") + "(func $start (type $v) memory.size call $proc_exit))",
}

# Calls a function for some seconds, and ends with 7.
ROUNDS = (HEAD + '''(export "add" (func $add))
  (data (offset i32.const 0) "\\08\\00\\00\\00\\06\\00\\00\\00begun\\0a\\00\\00\\18\\00\\00\\00\\06\\00\\00\\00ended\\0a")
  (func $add (type $add) local.get 0 i64.const 1 i64.add)
  (func $start (type $v) (local $i i64) i32.const 1 i32.const 0 i32.const 1 i32.const 32 call $fd_write drop
  loop local.get $i call $add local.tee $i i64.const {rounds} i64.lt_u br_if 0 end
  i32.const 1 i32.const 16 i32.const 1 i32.const 32 call $fd_write drop i32.const 7 call $proc_exit))''').replace(
      "(type $v (func))", "(type $v (func)) (type $add (func (param i64) (result i64)))")
ROUND_SECONDS = 4.0


def rounds(images: Images) -> int:
    """How many rounds take some seconds by the program under test."""
    some, file = 10_000, images.folder / "rounds.wasm"
    while True:
        file.write_bytes(images.assemble(ROUNDS.replace("{rounds}", str(some))))
        before = resource.getrusage(resource.RUSAGE_CHILDREN).ru_utime
        command([images.program, "run", file])
        seconds = resource.getrusage(resource.RUSAGE_CHILDREN).ru_utime - before
        if seconds > 0.2:
            return int(some * ROUND_SECONDS / seconds)
        some *= 4


def can_run(program: Path) -> bool:
    """Whether the tests can be run at all; standard error says why not."""
    absent = missing(TOOLS)
    if not program.is_file():
        print(f"{program} is not there: tools/shim --version builds it, and --program names another", file=sys.stderr)
    elif os.geteuid() != 0:
        print("these tests make containers, mounts and cgroups, and need to be root", file=sys.stderr)
    elif absent:
        print(f"To run: apt-get install -y --no-install-recommends {' '.join(absent)}", file=sys.stderr)
    else:
        return True
    return False


def go_environment(race: bool = False) -> dict[str, str]:
    """The environment in which go finds the source of this repository and Debian's libraries only."""
    path = f"/usr/share/gocode:{CLIENT}:{TOP / 'clients/oci'}"
    return {
        **os.environ, "GO111MODULE": "off", "GOPROXY": "off", "GOFLAGS": "", "GOPATH": path,
        "CGO_ENABLED": "1" if race else "0",
    }


def prepare(machine: Machine, program: Path, race: bool) -> Setting:
    """Builds the programs, and makes the images."""
    folder = machine.folder / "bin"
    folder.mkdir()
    put_command(folder)
    shutil.copy(program, folder / "wasm-shim")
    (folder / "wasm-shim").chmod(0o755)
    must([CLIENT / "build", *(["--race"] if race else []), folder / "containerd-shim-feulgama-v1"], seconds=600)
    must([TOP / "clients/oci/build", folder / "feulgama-oci"], seconds=600)
    must(["go", "build", "-trimpath", "-o", folder / "cri-call", "feulgama/cri-call"], go_environment(), seconds=600)
    (folder / "native.c").write_text(NATIVE)
    must(["gcc", "-O2", "-static", "-o", folder / "native", folder / "native.c"])
    work = machine.folder / "images"
    work.mkdir()
    images = Images(folder / "wasm-shim", folder / "feulgama-oci", work)
    images.make()
    for name, text in TEXTS.items():
        images.modules[name] = images.assemble(text)
        images.add(name, {f"{name}.wasm": images.modules[name]}, f"/{name}.wasm")
    some = rounds(images)
    images.modules["rounds"] = images.assemble(ROUNDS.replace("{rounds}", str(some)))
    images.modules["many-rounds"] = images.assemble(ROUNDS.replace("{rounds}", str(8 * some)))
    images.modules["words"] = (TOP / "clients/python/examples/words.wasm").read_bytes()
    for name in ("rounds", "many-rounds", "words"):
        images.add(name, {f"{name}.wasm": images.modules[name]}, f"/{name}.wasm")
    images.add("static", {"native": (folder / "native").read_bytes()}, "/native")
    lines = command(["/usr/bin/python3", "-c", "import elftools"]).status == 0
    return Setting(machine, images, load_tool(), folder, race, lines)
