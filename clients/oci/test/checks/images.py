"""The modules and images of the tests. Modules are texts, which the program under test assembles."""
from __future__ import annotations

import importlib.machinery
import importlib.util
import io
import subprocess
import sys
import tarfile
from dataclasses import dataclass, field
from pathlib import Path
from typing import Any

from .lowered import MODULES
from .machine import must

TOP = Path(__file__).resolve().parents[4]

# A module with a float instruction (0x43, f32.const), written byte by byte.
BAD = bytes.fromhex("0061736d01000000 010401600000 03020100 070a01065f73746172740000 0a0a01080043000000001a0b")

HEAD = '''(module
  (type $write (func (param i32 i32 i32 i32) (result i32))) (type $exit (func (param i32))) (type $v (func))
  (import "wasi_snapshot_preview1" "fd_write" (func $fd_write (type $write)))
  (import "wasi_snapshot_preview1" "proc_exit" (func $proc_exit (type $exit)))
  (memory 1)
  (export "memory" (memory 0))
  (export "_start" (func $start))
'''

# Exits with 7; traps; takes all the memory that it gets, and exits with its pages less 100.
TEXTS = {
    "exit7": HEAD + "(func $start (type $v) i32.const 7 call $proc_exit))",
    "trap": HEAD + "(func $start (type $v) unreachable))",
    "grow": HEAD + '''(func $start (type $v) loop i32.const 1 memory.grow i32.const -1 i32.ne br_if 0 end
  memory.size i32.const 100 i32.sub call $proc_exit))''',
}


def load_tool() -> Any:
    """The program tools/image, as a Python module."""
    loader = importlib.machinery.SourceFileLoader("image_tool", str(TOP / "tools" / "image"))
    spec = importlib.util.spec_from_loader("image_tool", loader)
    assert spec is not None
    module = importlib.util.module_from_spec(spec)
    sys.modules["image_tool"] = module
    loader.exec_module(module)
    return module


@dataclass(frozen=True)
class Entry:
    """A file of an image that is no plain file: its type as tarfile has it, and the target of a link."""

    type: bytes
    target: str = ""
    device: tuple[int, int] = (0, 0)


@dataclass(frozen=True)
class Picture:
    """An image: its short name, its one layer and its entry point."""

    name: str
    layer: bytes
    words: tuple[str, ...]
    environment: tuple[str, ...] = ()

    @property
    def reference(self) -> str:
        """The name under which hosts know it."""
        return f"localhost/{self.name}:1"

    def archive(self, tool: Any) -> bytes:
        """The archive that hosts load."""
        image = tool.Image(self.layer, self.words[0], self.reference, tool.Platform("linux", "amd64"), list(self.words[1:]),
                           list(self.environment))
        archive: bytes = image.archive()
        return archive


def layer(files: dict[str, bytes | Entry]) -> bytes:
    """A layer with these files, all of which can be run."""
    written = io.BytesIO()
    with tarfile.open(fileobj=written, mode="w", format=tarfile.PAX_FORMAT) as archive:
        for name, content in files.items():
            about = tarfile.TarInfo(name)
            about.mode = 0o755
            if isinstance(content, bytes):
                about.size = len(content)
                archive.addfile(about, io.BytesIO(content))
                continue
            about.type, about.linkname = content.type, content.target
            about.devmajor, about.devminor = content.device
            archive.addfile(about)
    return written.getvalue()


@dataclass
class Images:
    """All images of the tests, made once."""

    program: Path
    native: Path  # a static program
    folder: Path
    all: dict[str, Picture] = field(default_factory=dict)
    modules: dict[str, bytes] = field(default_factory=dict)
    texts: dict[str, str] = field(default_factory=dict)

    def assemble(self, text: str) -> bytes:
        """The module of a text."""
        file = self.folder / "text.wat"
        file.write_text(text)
        return bytes.fromhex(must([self.program, "asm", file]).strip())

    def make(self) -> None:
        """Makes all images."""
        example = TOP / "examples"
        counts = TOP / "clients/oci/test/counts.wat"
        files = {"hello": example / "hello.wat", "echo": example / "echo.wat", "counts": counts}
        texts = self.texts = {**TEXTS, **{name: file.read_text() for name, file in files.items()}}
        texts["environment"] = texts["echo"].replace('"args_', '"environ_')
        modules = self.modules = {"bad": BAD, **MODULES, **{name: self.assemble(text) for name, text in texts.items()}}
        for name, module in modules.items():
            self.add(name, {f"{name}.wasm": module}, f"/{name}.wasm")
        self.add("native", {"feulgama-oci": self.native.read_bytes()}, "/feulgama-oci", "--help")
        outside = self.folder / "outside.wasm"
        outside.write_bytes(modules["hello"])
        self.add("link-out", {"m.wasm": Entry(tarfile.SYMTYPE, "../" * 12 + str(outside)[1:])}, "/m.wasm")
        self.add("link-absolute", {"m.wasm": Entry(tarfile.SYMTYPE, str(outside))}, "/m.wasm")
        self.add("link-in", {"real.wasm": modules["exit7"], "m.wasm": Entry(tarfile.SYMTYPE, "/real.wasm")}, "/m.wasm")
        self.add("fifo", {"m.wasm": Entry(tarfile.FIFOTYPE)}, "/m.wasm")
        self.add("device", {"m.wasm": Entry(tarfile.CHRTYPE, device=(1, 5))}, "/m.wasm")
        self.add("folder", {"m.wasm": Entry(tarfile.DIRTYPE)}, "/m.wasm")
        self.add("huge", {"m.wasm": modules["hello"] + bytes(1 << 20)}, "/m.wasm")
        self.add("loader", {"m.wasm": modules["hello"], **self.evil()}, "/m.wasm", environment=("LD_PRELOAD=/evil.so",))

    def add(self, name: str, files: dict[str, bytes | Entry], *words: str, environment: tuple[str, ...] = ()) -> None:
        """Adds an image."""
        self.all[name] = Picture(name, layer(files), words, environment)

    def evil(self) -> dict[str, bytes | Entry]:
        """A library that writes a line when it is loaded, in all places from which the system's loader would take it."""
        library = self.folder / "evil.so"
        source = '#include <unistd.h>\n__attribute__((constructor)) static void f(void) { write(1, "evil\\n", 5); }\n'
        subprocess.run(["gcc", "-x", "c", "-", "-shared", "-fPIC", "-o", library], input=source.encode(), check=True)
        native = library.read_bytes()
        return {"evil.so": native, "etc/ld.so.preload": b"/evil.so\n", "lib/x86_64-linux-gnu/libc.so.6": native,
                "lib/x86_64-linux-gnu/glibc-hwcaps/x86-64-v2/libc.so.6": native, "lib64/ld-linux-x86-64.so.2": native,
                ".feulgama/lib/libc.so.6": native, ".feulgama/lib/glibc-hwcaps/x86-64-v2/libc.so.6": native}
