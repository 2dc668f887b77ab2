"""Programs of C and Rust as toolchains make them, linked with sdk/c, and lowered: they write what their languages say."""
from __future__ import annotations

import shutil
import subprocess
import tempfile
import unittest
from pathlib import Path

import feulgama
from feulgama.lowering import lower
from tests.float_programs import in_node
from tests.small_programs import ALL, CPP, CPP_SAYS, PROGRAMS, RUST, RUST_SAYS, Program
from tests.support import SHIM, TOP

SDK = TOP / "sdk/c"
SYSROOT = Path("/usr/lib/wasm32-wasi/libc.a")
MISSING = [name for name in ("clang-14", "wasm-ld-14", "make") if shutil.which(name) is None] + [
    str(path) for path in (SYSROOT,) if not path.exists()]
NEEDED = "apt-get install -y --no-install-recommends make clang-14 lld-14 wasi-libc libclang-rt-14-dev-wasm32"
HAS_22 = (Path("/usr/lib/llvm-22/lib/clang/22/lib/wasi/libclang_rt.builtins-wasm32.a").exists()
          and all(shutil.which(name) for name in ("clang-22", "wasm-ld-22")))
NEEDED_22 = "apt-get install -y --no-install-recommends clang-22 lld-22 libclang-rt-22-dev-wasm32"
HAS_CPP = shutil.which("clang++-14") is not None and Path("/usr/include/wasm32-wasi/c++/v1/map").exists()
NEEDED_CPP = "apt-get install -y --no-install-recommends clang-14 libc++-14-dev-wasm32"
HAS_RUST = Path("/usr/bin/rustc").is_file() and any(Path("/usr/lib/rustlib").glob("wasm32-wasi/lib/libstd-*"))
NEEDED_RUST = "apt-get install -y --no-install-recommends rustc libstd-rust-dev-wasm32"
HAS_NODE = shutil.which("node") is not None
MEMORY = 4 * 2**20


@unittest.skipIf(MISSING, f"{', '.join(MISSING)} not there: {NEEDED}")
class Built(unittest.TestCase):
    """The folder has a copy of sdk/c, in which `make` was called."""
    folder: Path

    @classmethod
    def setUpClass(cls) -> None:
        cls.folder = Path(cls.enterClassContext(tempfile.TemporaryDirectory()))
        shutil.copytree(SDK, cls.folder / "c", ignore=shutil.ignore_patterns("out"))
        subprocess.run(["make", "-s", "-C", cls.folder / "c"], check=True)

    def flags(self, *words: str) -> list[str]:
        return subprocess.run([self.folder / "c/flags", *words], check=True, capture_output=True, text=True).stdout.split()

    def built(self, program: Program, clang: str, flags: list[str]) -> bytes:
        """The module of a program."""
        source, out = self.folder / f"{program.name}.c", self.folder / f"{program.name}.wasm"
        source.write_text(ALL + program.text)
        subprocess.run([clang, *flags, "-o", out, source], check=True)
        return out.read_bytes()

    def says(self, shim: feulgama.Shim, program: Program, data: bytes) -> None:
        """Runs a module and compares what it wrote."""
        ran = shim.run(data, ["module", "one", "two"], {"KEY": "value"}, MEMORY)
        self.assertEqual((ran.stdout.decode(), ran.stderr.decode(), ran.exit.code),
                         (program.stdout, program.stderr, program.status), program.name)

    def test_linked(self) -> None:
        """By the two commands of the page; nothing is to be lowered then."""
        with feulgama.Shim(SHIM) as shim:
            for program in PROGRAMS:
                data = self.built(program, "clang-14", self.flags())
                self.assertEqual(lower(data).data, data)
                self.says(shim, program, data)

    @unittest.skipIf(not HAS_22, f"clang-22 or its library not there: {NEEDED_22}")
    def test_linked_by_clang_22(self) -> None:
        with feulgama.Shim(SHIM) as shim:
            for program in PROGRAMS:
                self.says(shim, program, self.built(program, "clang-22", self.flags("--clang", "22", "--stack", "32768")))

    def test_lowered(self) -> None:
        """Without sdk/c, and with the instructions that newer versions of clang take by default."""
        flags = ["--target=wasm32-wasi", "--sysroot=/usr", "-O2", "-mbulk-memory", "-ftls-model=local-exec",
                 "-lc-printscan-no-floating-point"]
        replaced = set[str]()
        with feulgama.Shim(SHIM) as shim:
            for program in PROGRAMS:
                found = lower(self.built(program, "clang-14", flags))
                replaced |= set(found.replaced)
                self.says(shim, program, found.data)
        self.assertLessEqual({"memory.copy", "memory.fill", "fd_close", "fd_read", "clock_time_get"}, replaced)

    @unittest.skipIf(not HAS_22, f"clang-22 or its library not there: {NEEDED_22}")
    def test_lowered_from_clang_22(self) -> None:
        """Its defaults."""
        flags = ["--target=wasm32-wasi", "--sysroot=/usr", "-O2", "-Wno-deprecated", "-lc-printscan-no-floating-point"]
        with feulgama.Shim(SHIM) as shim:
            for program in PROGRAMS:
                self.says(shim, program, lower(self.built(program, "clang-22", flags)).data)

    @unittest.skipIf(not HAS_CPP, f"clang++-14 or its library not there: {NEEDED_CPP}")
    def test_cpp(self) -> None:
        """A map and a vector; with sdk/c, and lowered."""
        source, out = self.folder / "program.cc", self.folder / "program.wasm"
        source.write_text(CPP)
        subprocess.run(["clang++-14", *self.flags("--c++"), "-o", out, source], check=True)
        linked = out.read_bytes()
        self.assertEqual(lower(linked).data, linked)
        flags = [word for word in self.flags("--c++") if not word.startswith("-mcpu") and not word.endswith("calls.o")]
        subprocess.run(["clang++-14", *flags, "-mbulk-memory", "-ftls-model=local-exec", "-o", out, source], check=True)
        lowered = lower(out.read_bytes())
        self.assertIn("fd_seek", lowered.replaced)
        if HAS_NODE:
            self.assertEqual(in_node(out.read_bytes(), ["module"], {}), (CPP_SAYS, "", 3))
        with feulgama.Shim(SHIM) as shim:
            for data in (linked, lowered.data):
                ran = shim.run(data, memory_limit=MEMORY)
                self.assertEqual((ran.stdout.decode(), ran.exit.code), (CPP_SAYS, 3))

    def test_the_flags(self) -> None:
        self.assertIn("-Wl,-z,stack-size=999", self.flags("--stack", "999"))
        for words in (["--none"], ["--stack"], ["--stack", "x"], ["--clang", "3"], ["--c++", "--clang", "22"]):
            run = subprocess.run([self.folder / "c/flags", *words], capture_output=True, check=False)
            self.assertEqual((run.returncode, run.stdout, run.stderr[:7]), (2, b"", b"flags: "))

    def test_the_example(self) -> None:
        subprocess.run(["make", "-s", "-C", self.folder / "c", "out/hello.wasm"], check=True)
        with feulgama.Shim(SHIM) as shim:
            ran = shim.run((self.folder / "c/out/hello.wasm").read_bytes(), ["hello", "a", "b"])
        self.assertEqual((ran.stdout, ran.exit.code), (b"1: a\n2: b\nno input\n2000-01-01\n", 2))
        self.assertEqual(ran.stderr, b"settings.txt: Capabilities insufficient\n")


@unittest.skipIf(not HAS_RUST, f"Debian's rustc not there: {NEEDED_RUST}")
class Rust(unittest.TestCase):
    def test_lowered(self) -> None:
        """A map with random keys, a file that is not there, an empty input, a clock and a sleep."""
        folder = Path(self.enterContext(tempfile.TemporaryDirectory()))
        source, out = folder / "program.rs", folder / "program.wasm"
        source.write_text(RUST)
        subprocess.run(["/usr/bin/rustc", "--target", "wasm32-wasi", "-C", "opt-level=s", "-C", "panic=abort", "-C", "lto=fat",
                        "-C", "target-feature=+bulk-memory", "-C", "strip=symbols", "-o", out, source], check=True)
        found = lower(out.read_bytes())
        self.assertLessEqual({"random_get", "path_open", "fd_read", "clock_time_get", "poll_oneoff", "memory.copy"},
                             set(found.replaced))
        with feulgama.Shim(SHIM) as shim:
            ran = shim.run(found.data, memory_limit=MEMORY)
        self.assertEqual((ran.stdout.decode(), ran.exit.code), (RUST_SAYS, 5))
        if HAS_NODE:  # where five seconds are slept
            self.assertEqual(in_node(out.read_bytes(), ["module"], {}), (RUST_SAYS, "", 5))
