"""Debugging of a module that is lowered as it is opened: lines, variables, steps and writes are those of the source."""
from __future__ import annotations

import subprocess
import tempfile
import unittest
from pathlib import Path
from typing import Any

import pytest

import feulgama
from feulgama.debug import dwarf
from feulgama.debug.commands import Commands
from feulgama.lowering import LoweringError, lower
from feulgama.lowering.described import NOWHERE, described
from feulgama.opening import open_debugger
from feulgama.wasm.module import HEAD, decode
from tests import written_modules as m
from tests.c_programs import HAS_RUST, MISSING, built_c, built_rust
from tests.support import SHIM
from tests.test_dap import WithEditor
from tests.written_modules import Written

TEXT = """__attribute__((import_module("wasi_snapshot_preview1"), import_name("clock_res_get")))
int resolution(int clock, long long *time);
struct large { char bytes[300]; int number; };
static int total(struct large *from) {
  struct large copied = *from;
  int sum = 0;
  __builtin_memset(copied.bytes, 2, 100);
  for (int at = 90; at < 110; at++)
    sum += copied.bytes[at];
  return sum + copied.number;
}
static long long tick;
static struct large first = {.bytes = {[99] = 7, [100] = 9}, .number = 40};
int found;
__attribute__((export_name("_start"))) void start(void) {
  resolution(0, &tick);
  found = total(&first);
}

"""
FLAGS = ("-g", "-O0", "-mbulk-memory")
FLOATS = """struct point { double x; float y; int n; };
static double scale = 2.5;
static double mean(const double *values, int count) {
  double sum = 0;
  float last = 0;
  for (int at = 0; at < count; at++) {
    sum += values[at];
    last = values[at];
  }
  struct point all = {sum, last, count};
  return all.x / all.n * scale;
}
static double values[] = {0.5, 7.0625, 0.06};
double found;
__attribute__((export_name("_start"))) void start(void) {
  found = mean(values, 3);
}
"""
RUST = """struct Sum { total: f64, last: f32, count: u32 }
#[inline(never)]
fn mean(values: &[f64], scale: f64) -> f64 {
    let mut all = Sum { total: 0.0, last: 0.0, count: 0 };
    for value in values {
        all.total += value;
        all.last = *value as f32;
        all.count += 1;
    }
    let found = all.total / all.count as f64;
    found * scale
}
"""
ALONE = """#[panic_handler] fn panic(_: &core::panic::PanicInfo) -> ! { loop {} }
static mut FOUND: f64 = 0.0;
#[no_mangle] pub extern "C" fn _start() { unsafe { FOUND = mean(&[0.5, 7.0625, 0.06], 2.5); } }
"""
WITH_STD = """use std::collections::HashMap;
fn main() {
    let mut means: HashMap<&str, f64> = HashMap::new();
    means.insert("some", mean(&[0.5, 7.0625, 0.06], 2.5));
    println!("{:.4}", means["some"]);
}
"""
# What C and Rust say of it.
SUMS = (0.5, 0.5 + 7.0625, 0.5 + 7.0625 + 0.06)
FOUND = SUMS[2] / 3 * 2.5


def line_of(words: str, text: str = TEXT) -> int:
    """The number of a line of the program."""
    return next(number for number, line in enumerate(text.splitlines(), 1) if words in line)


@unittest.skipUnless(dwarf.IS_THERE, "needs python3-pyelftools")
@unittest.skipIf(MISSING, f"needs {' '.join(MISSING)} of Debian's clang-14, lld-14 and llvm-14")
class Built(unittest.TestCase):
    def setUp(self) -> None:
        folder = Path(self.enterContext(tempfile.TemporaryDirectory()))
        self.module = built_c(folder, "copies", TEXT, *FLAGS)
        self.data = self.module.read_bytes()

    def test_what_is_replaced(self) -> None:
        self.assertEqual(set(lower(self.data).replaced), {"memory.copy", "memory.fill", "clock_res_get"})

    def test_lines_and_variables(self) -> None:
        shim = self.enterContext(feulgama.Shim(SHIM))
        commands = Commands(open_debugger(shim, self.module, self.data, [], {}, None))

        def answer(words: str) -> str:
            return "\n".join(commands.answer(words))

        def line() -> int:
            frame = answer("bt").splitlines()[0]
            return int(frame.rpartition(":")[2])

        def step(words: str) -> int:
            answer(words)
            return line()

        self.assertIn(f"copies.c:{line_of('copied = *from')}", answer("break total"))
        self.assertEqual(step("continue"), line_of("copied = *from"))
        steps = [step("step") for _ in range(4)]
        self.assertEqual(steps, [line_of("sum = 0"), line_of("memset"), line_of("for"), line_of("sum +=")])
        self.assertEqual(step("reverse-step"), line_of("for"))
        self.assertEqual(step("tbreak copies.c:10") and step("continue"), line_of("return sum"))
        self.assertEqual(answer("print sum"), f"int {10 * 2 + 9}")
        self.assertEqual(answer("print copied.number"), "int 40")
        self.assertIn("copied.bytes[99] was written last", answer("last-write copied.bytes[99]"))
        writer, caller = answer("bt").splitlines()[:2]
        self.assertIn("<lowered.memory_fill>", writer)
        self.assertTrue(caller.endswith(f"copies.c:{line_of('memset')}"), caller)
        answer("delete")
        answer("continue")
        self.assertIn("int 69", answer("print found"))
        self.assertIn("long long 1000", answer("print tick"))


@unittest.skipUnless(dwarf.IS_THERE, "needs python3-pyelftools")
@unittest.skipIf(MISSING, f"needs {' '.join(MISSING)} of Debian's clang-14, lld-14 and llvm-14")
class Doubles(unittest.TestCase):
    """A program with doubles, as it comes from the compiler."""

    def setUp(self) -> None:
        self.module = built_c(Path(self.enterContext(tempfile.TemporaryDirectory())), "mean", FLOATS, "-g", "-O0")
        shim = self.enterContext(feulgama.Shim(SHIM))
        self.commands = Commands(open_debugger(shim, self.module, self.module.read_bytes(), [], {}, None))

    def answer(self, words: str) -> str:
        return "\n".join(self.commands.answer(words))

    def line(self, words: str) -> int:
        """The line after a command."""
        self.answer(words)
        return int(self.answer("bt").splitlines()[0].rpartition(":")[2])

    def test_lines_and_values(self) -> None:
        """A step is a line, over the functions that do the sums, forward and back."""
        body, after = line_of("sum +=", FLOATS), line_of("last = values", FLOATS)
        self.answer(f"tbreak mean.c:{body}")
        self.assertEqual(self.line("continue"), body)
        self.assertEqual((self.answer("print sum"), self.line("step")), ("double 0.0", after))
        self.assertEqual((self.answer("print sum"), self.line("step")), ("double 0.5", line_of("for", FLOATS)))
        self.assertEqual((self.answer("print last"), self.line("reverse-step")), ("float 0.5", after))
        self.assertEqual((self.answer("print last"), self.line("reverse-step")), ("float 0.0", body))
        self.assertEqual((self.answer("print sum"), self.answer("print values[1]")), ("double 0.0", "double 7.0625"))
        self.assertEqual(self.answer("print scale * 2 + 0.25"), "double 5.25")

    def test_the_functions_that_do_the_sums(self) -> None:
        """Single turns go into them, and `finish` out of them; they have no lines."""
        self.answer(f"tbreak mean.c:{line_of('sum +=', FLOATS)}")
        self.answer("continue")
        for _ in range(40):
            self.answer("stepi")
            if "<lowered.f64_add>" in self.answer("bt").splitlines()[0]:
                break
        self.assertIn("<lowered.f64_add>", self.answer("bt").splitlines()[0])
        self.assertRegex(self.answer("bt").splitlines()[1], f"<mean> .*mean.c:{line_of('sum +=', FLOATS)}")
        self.assertEqual(self.line("finish"), line_of("sum +=", FLOATS))

    def test_conditions_and_watches(self) -> None:
        self.answer(f"break mean.c:{line_of('last = values', FLOATS)} if sum > 7.6")
        self.answer("continue")
        self.assertEqual(self.answer("print sum"), f"double {SUMS[2]!r}")
        self.answer("delete")
        self.answer("watch sum")
        self.answer("reverse-continue")
        self.answer("reverse-continue")
        self.assertEqual(self.answer("print sum"), f"double {SUMS[0]!r}")
        self.assertIn(f"sum was {SUMS[0]!r}, is {SUMS[1]!r}", self.answer("continue"))
        self.assertIn(f"it makes it {SUMS[1]!r}", self.answer("last-write sum"))

    def test_structures_and_results(self) -> None:
        self.answer(f"tbreak mean.c:{line_of('return all', FLOATS)}")
        self.answer("continue")
        self.assertEqual(self.answer("print all"), f"struct point {{x = {SUMS[2]!r}, y = 0.06, n = 3}}")
        self.assertIn(f"f64:{SUMS[2]!r}", self.answer("info locals"))
        self.assertIn("f32:0.06", self.answer("info locals"))
        self.assertIn(f"returned double {FOUND!r}", self.answer("finish"))
        self.answer("continue")
        self.assertEqual(self.answer("print found"), f"double {FOUND!r}")


class RustSession(unittest.TestCase):
    """A program of Rust with floats: lines, values, and back."""

    def session(self, module: Path, text: str, memory: int | None = None) -> Commands:
        """Goes to the end of `mean` and back to its second round; the debugger, which is there."""
        commands = Commands(open_debugger(self.enterContext(feulgama.Shim(SHIM)), module, module.read_bytes(), [], {}, memory))

        def answer(words: str) -> str:
            return "\n".join(commands.answer(words))

        last, body = (line_of(words, text) for words in ("found * scale", "all.count += 1"))
        answer(f"break mean.rs:{last}")
        self.assertIn(f"mean.rs:{last}", answer("continue"))
        self.assertEqual(answer("print all"), f"Sum {{total = {SUMS[2]!r}, last = 0.06, count = 3}}")
        self.assertEqual((answer("print found"), answer("print scale")), (f"f64 {SUMS[2] / 3!r}", "f64 2.5"))
        self.assertIn("(scale=2.5, values={data_ptr = ", answer("bt").splitlines()[0])
        answer(f"break mean.rs:{body}")
        for count in (2, 1):
            self.assertIn(f"mean.rs:{body}", answer("reverse-continue"))
            self.assertEqual(answer("print all.total"), f"f64 {SUMS[count]!r}")
            self.assertEqual(answer("print all.count"), f"u32 {count}")
        self.assertEqual((answer("print *value"), answer("print all.last")), ("f64 7.0625", "f32 7.0625"))
        self.assertIn(f"it makes it {SUMS[1]!r}", answer("last-write all.total"))
        return commands

    @unittest.skipUnless(dwarf.IS_THERE, "needs python3-pyelftools")
    @unittest.skipUnless(HAS_RUST, "needs Debian's rustc and libstd-rust-dev-wasm32")
    def test_without_a_library(self) -> None:
        folder, text = Path(self.enterContext(tempfile.TemporaryDirectory())), "#![no_std]\n" + RUST + ALONE
        commands = self.session(built_rust(folder, "mean", text, 0), text, 2**21)
        list(commands.answer("delete"))
        list(commands.answer("continue"))
        self.assertIn(f"f64 mean::FOUND = {FOUND!r}", list(commands.answer("info variables")))

    @pytest.mark.slow
    @unittest.skipUnless(dwarf.IS_THERE, "needs python3-pyelftools")
    @unittest.skipUnless(HAS_RUST, "needs Debian's rustc and libstd-rust-dev-wasm32")
    def test_as_it_comes_from_the_compiler(self) -> None:
        """By `rustc -g` alone, with a map whose keys are random: some seven million bytes, which are read in a while."""
        folder, text = Path(self.enterContext(tempfile.TemporaryDirectory())), RUST + WITH_STD
        source, module = folder / "mean.rs", folder / "mean.wasm"
        source.write_text(text)
        subprocess.run(["/usr/bin/rustc", "--target", "wasm32-wasi", "-g", "-o", module, source], check=True)
        commands = self.session(module, text, 2**22)
        list(commands.answer("delete"))
        self.assertIn(f"stdout: {FOUND:.4f}", list(commands.answer("continue")))


class OfEditors(WithEditor):
    @unittest.skipUnless(dwarf.IS_THERE, "needs python3-pyelftools")
    @unittest.skipIf(MISSING, f"needs {' '.join(MISSING)} of Debian's clang-14, lld-14 and llvm-14")
    def test_doubles(self) -> None:
        """Variables of the source, and locals of the module, by value."""
        module = built_c(Path(self.enterContext(tempfile.TemporaryDirectory())), "mean", FLOATS, "-g", "-O0")
        self.launch(program=str(module))
        lines = [{"line": line_of("return all", FLOATS)}]
        self.editor.ask("setBreakpoints", source={"path": str(module.with_name("mean.c"))}, breakpoints=lines)
        self.editor.ask("configurationDone")
        self.editor.event("stopped")
        self.assertEqual(self.editor.evaluate("sum"), repr(SUMS[2]))
        self.assertEqual(self.editor.evaluate("last / 2 < 0.04"), "1")
        self.assertIn(("f64", repr(SUMS[2])), [(one.get("type"), one["value"]) for one in self.locals()])

    def locals(self) -> list[Any]:
        """The locals of the frame."""
        scopes = self.editor.ask("scopes", frameId=self.editor.frames()[0]["id"])["body"]["scopes"]
        reference = next(one["variablesReference"] for one in scopes if one["name"] == "Locals")
        found: list[Any] = self.editor.ask("variables", variablesReference=reference)["body"]["variables"]
        return found

    @unittest.skipUnless(dwarf.IS_THERE, "needs python3-pyelftools")
    @unittest.skipIf(MISSING, f"needs {' '.join(MISSING)} of Debian's clang-14, lld-14 and llvm-14")
    def test_a_breakpoint(self) -> None:
        module = built_c(Path(self.enterContext(tempfile.TemporaryDirectory())), "copies", TEXT, *FLAGS)
        self.launch(program=str(module))
        source = {"path": str(module.with_name("copies.c"))}
        answer = self.editor.ask("setBreakpoints", source=source, breakpoints=[{"line": line_of("return sum")}])
        self.assertTrue(answer["body"]["breakpoints"][0]["verified"])
        self.editor.ask("configurationDone")
        self.assertEqual(self.editor.event("stopped")["body"]["reason"], "breakpoint")
        self.assertEqual(self.editor.frames()[0]["line"], line_of("return sum"))
        self.assertEqual(self.editor.evaluate("sum"), "29")


class Offsets(unittest.TestCase):
    def test_described(self) -> None:
        """Instructions are at the offsets of the original, and added functions at none."""
        customs = b"\0\x07" + m.text(".debug") + b""
        data = Written(m.operands(0, 0, 9) + m.COPY + m.operands(1, 2, 3) + m.FILL, [m.imported("fd_close", 2)],
                       [m.TO_CLOSE], customs=customs).bytes()
        found = lower(data)
        lowered, source = decode(found.data), described(data, found)
        self.assertEqual([len(one.instructions) for one in source.functions],
                         [len(one.instructions) for one in lowered.functions])
        own = source.functions[1]
        self.assertEqual(own.index, 1)
        # After the number of bodies, the size of the body and that of its locals, each in one byte.
        self.assertEqual([one.offset for one in own.instructions], [3, 5, 7, 9, 13, 15, 17, 19])
        self.assertTrue(all(one.offset == NOWHERE for at in (0, 2, 3) for one in source.functions[at].instructions))

    def test_the_library_lowers_if_asked(self) -> None:
        data = Written(m.operands(0, 88, 2) + m.FILL + m.show(0, 3), [m.WRITER]).bytes()
        with feulgama.Shim(SHIM) as shim:
            self.assertEqual(shim.run(data, lower=True).stdout, b"XX\0")
            with self.assertRaises(feulgama.RefusalError):
                shim.run(data)
            with self.assertRaises(LoweringError):
                shim.run(HEAD + b"\x01", lower=True)
