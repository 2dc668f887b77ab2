"""Variables of C and Rust: at random stops they have the values of a second reading of their descriptions."""
from __future__ import annotations

import os
import random
import shutil
import subprocess
import sys
import tempfile
import unittest
from collections.abc import Iterator
from pathlib import Path
from unittest import mock

import feulgama
from feulgama.debug import dwarf
from feulgama.debug.commands import Commands
from feulgama.debug.debugger import Debugger
from feulgama.debug.demangle import demangled
from feulgama.debug.location import Context, locate
from feulgama.model import Frame, Value, ValueType
from feulgama.opening import open_debugger
from feulgama.wasm.module import decode
from feulgama.wasm.names import Names
from tests import c_programs
from tests.c_programs import HAS_RUST, MISSING, Maker, built_c, built_rust
from tests.second_dwarf import SecondReading
from tests.support import ASCII, CLIENT, EXIT_7, SHIM

STOPS = 25
MODULE = CLIENT / "examples/words.wasm"
WORDS = (CLIENT / "examples/words.c").read_text()


@unittest.skipUnless(dwarf.IS_THERE, "needs python3-pyelftools")
@unittest.skipIf(MISSING, f"needs {' '.join(MISSING)} of Debian's clang-14, lld-14 and llvm-14")
class RandomStops(unittest.TestCase):
    """25 stops of each of 20 programs: by clang at -O0, -O1 and -O2, with DWARF 4 and 5, and by rustc at 0 and 1."""

    def setUp(self) -> None:
        self.folder = Path(self.enterContext(tempfile.TemporaryDirectory()))
        self.stops = self.values = self.missing = 0
        self.random = random.Random(11)

    def modules(self) -> Iterator[Path]:
        for level in ("-O0", "-O1", "-O2"):
            for seed in range(4):
                yield built_c(self.folder, f"random{seed}", Maker(seed).program(), "-g", level)
            yield built_c(self.folder, "words", WORDS, "-g", level)
            yield built_c(self.folder, "words", WORDS, "-gdwarf-5", level)
        for optimization in (0, 1) if HAS_RUST else ():
            yield built_rust(self.folder, "shapes", c_programs.RUST, optimization)

    def test_values(self) -> None:
        for module in self.modules():
            with self.subTest(module.name), feulgama.Shim(SHIM, workers=1) as shim:
                second = SecondReading(module)
                debugger = open_debugger(shim, module, module.read_bytes(), [], {}, None)
                debugger.go_on()
                end, before = debugger.timeline.turn, self.values
                for turn in sorted(self.random.sample(range(end), STOPS)):
                    debugger.timeline.seek(turn)
                    self.compare(debugger, second)
                self.assertGreater(self.values, before)
                debugger.timeline.close()
        self.assertEqual(self.stops, STOPS * (20 if HAS_RUST else 18))
        self.assertGreater(self.values, 3000)
        self.assertGreater(self.missing, 100)

    def compare(self, debugger: Debugger, second: SecondReading) -> None:
        """The variables of all frames at a stop."""
        self.stops += 1
        for number, frame in enumerate(debugger.frames()):
            place = debugger.place_of(frame, number == 0)
            offset = debugger.symbols.instruction(place).offset
            wanted = second.variables(frame, offset, debugger.timeline.memory)
            found = {one.name: one for one in debugger.variables(number) if not one.is_global}
            told = f"turn {debugger.timeline.turn} frame {number} at {debugger.symbols.told(place)}"
            self.assertEqual({name: one.data for name, one in found.items()}, wanted, told)
            for one in found.values():
                self.values += one.data is not None
                self.missing += one.data is None
                self.assertEqual(one.data is None, one.text.startswith("("), one)


class Sessions(unittest.TestCase):
    """What is said of a module without its source, or of a run that has ended."""

    def opened(self, data: bytes = MODULE.read_bytes()) -> Commands:
        shim = self.enterContext(feulgama.Shim(SHIM))
        return Commands(open_debugger(shim, MODULE, data, [], {}, None))

    @unittest.skipUnless(dwarf.IS_THERE, "needs python3-pyelftools")
    def test_a_breakpoint_at_a_function_stops_after_its_prologue(self) -> None:
        """There the parameters have what was passed: the text has words of 3, 5 and 5 letters at its begin."""
        commands = self.opened()
        list(commands.answer("break end_word"))
        for length in (3, 5, 5):
            list(commands.answer("continue"))
            self.assertEqual(list(commands.answer("print length")), [f"unsigned int {length}"])
            self.assertEqual(list(commands.answer("frame 1"))[0][:2], "#1")
            self.assertEqual(list(commands.answer("print length")), [f"unsigned int {length}"])
        self.assertIn("7:0 ", list(commands.answer("break end_word:0"))[0])

    @unittest.skipUnless(dwarf.IS_THERE, "needs python3-pyelftools")
    def test_variables_after_the_end(self) -> None:
        """The text of words.c has 9 words with 35 letters, of which the longest has 5."""
        commands = self.opened()
        list(commands.answer("continue"))
        found = "struct counts found = {words = 9, longest = 5, sum = 35}"
        shown = list(commands.answer("info variables"))
        self.assertIn(found, shown)
        self.assertIn("the task has ended", shown[-1])
        self.assertEqual(list(commands.answer("print found")), [found.replace(" found =", "")])
        self.assertEqual(list(commands.answer("x/3dw &found")), ["0x00000430: 9 5 35"])
        with self.assertRaisesRegex(feulgama.FeulgamaError, "nothing named length; the task has ended"):
            list(commands.answer("print length"))

    def test_custom_sections_are_not_sent(self) -> None:
        """A module with more bytes of them than a shim takes is opened, and its digest is that of the others."""
        name = b"\x04junk" + bytes(300_000)
        size = bytes([len(name) & 0x7F | 0x80, len(name) >> 7 & 0x7F | 0x80, len(name) >> 14])
        data = MODULE.read_bytes()
        commands = self.opened(data[:8] + b"\0" + size + name + data[8:])
        self.assertEqual(commands.symbols.module.sent, decode(data).sent)
        self.assertEqual(list(commands.answer("continue"))[-1], "ended after 8069 turns: exit, exit 9")
        self.assertIn("3 count", "\n".join(commands.answer("info functions")))

    def test_a_module_that_is_too_large(self) -> None:
        data = EXIT_7 + b"\x0b\x81\x80\x80\x01" + bytes(0x200001)
        with self.assertRaisesRegex(feulgama.FeulgamaError, f"{len(data)} bytes without its custom .* may have 262144"):
            self.opened(data)

    def test_why_there_are_no_lines(self) -> None:
        with mock.patch.object(dwarf, "IS_THERE", False):
            commands = self.opened()
            with self.assertRaisesRegex(feulgama.FeulgamaError, "has line tables, and python3-pyelftools"):
                list(commands.answer("break words.c:49"))
            self.assertIn("python3-pyelftools", list(commands.answer("info variables"))[0])
        plain = decode(MODULE.read_bytes()).sent
        with self.assertRaisesRegex(feulgama.FeulgamaError, "no line tables"):
            list(self.opened(plain).answer("break words.c:49"))


class Expressions(unittest.TestCase):
    """Expressions of DWARF, by the standard's words on each operation."""

    def value(self, code: str, size: int = 4) -> int:
        frame = Frame(0, (), (Value(ValueType.I32, -2), Value(ValueType.I64, -3)), 0, (Value(ValueType.I32, 9),))
        context = Context(frame, lambda address, length: bytes(range(address, address + length)), [100, 200].__getitem__,
                          bytes.fromhex("ed00009f"))
        return int.from_bytes(locate(bytes.fromhex(code), size, context).bytes_of(size, context.memory), "little")

    def test_values(self) -> None:
        shown = {"ed0000 9f": 2**32 - 2, "ed0200 9f": 9, "ed03000000009f": None, "35 38 22 9f": 13, "38 35 1c 9f": 3,
                 "35 12 1e 9f": 25, "35 36 16 1c 9f": 1, "08ff 09ff 1a 9f": 255, "39 38 37 17 13 1c 9f": 2**32 - 2,
                 "34 2f0100 35 9f": 4, "31 280100 35 37 9f": 7, "a101 9f": 200, "03 10000000": 0x13121110,
                 "03 10000000 06 9f": 0x13121110, "9e04 01020304": 0x04030201, "34 ed0000 1b 9f": 2**32 - 2}
        for code, wanted in shown.items():
            if wanted is None:
                self.assertRaisesRegex(feulgama.FeulgamaError, "global 0", self.value, code)
            else:
                self.assertEqual(self.value(code), wanted, code)

    def test_numbers_of_64_bits(self) -> None:
        self.assertEqual(self.value("ed0001 9f", 8), 2**64 - 3)
        self.assertEqual(self.value("ed0001 1020 24 1020 26 9f", 8), 2**64 - 3)
        self.assertEqual(self.value("ed0000 1018 24 1018 26 9f"), 2**32 - 2)

    def test_pieces(self) -> None:
        self.assertEqual(self.value("03 10000000 9302 03 12000000 9302"), 0x13121110)
        self.assertEqual(self.value("31 9f 9302 ed0200 9f 9302"), 0x00090001)
        self.assertRaisesRegex(feulgama.FeulgamaError, "optimized out", self.value, "03 10000000 9302 9302")

    def test_faults(self) -> None:
        for code in ("", "22", "03", "9f", "ed0009 9f", "a3 01 30 9f", "2ffdff", "30 30 1d 9f", "ff"):
            self.assertRaises(feulgama.FeulgamaError, self.value, code)


@unittest.skipIf(shutil.which("c++filt") is None, "needs Debian's binutils")
class Demangled(unittest.TestCase):
    """Names of the Itanium C++ ABI, of Rust's RFC 2603, and of Rust before it."""

    def test_names(self) -> None:
        wanted = {"_ZN5count4wordEPKc": "count::word(char const*)", "_RNvC6_123foo3bar": "123foo::bar",
                  "_ZN4prog5total17h0123456789abcdefE": "prog::total",
                  "_ZN4prog5total17h0123456789abcdefE.llvm.123": "prog::total",
                  "_ZN48_$LT$prog..Shape$u20$as$u20$core..fmt..Debug$GT$3fmt17h0123456789abcdefE":
                      "<prog::Shape as core::fmt::Debug>::fmt"}
        self.assertEqual(demangled([*wanted, "main", "_start"]), wanted)

    def test_a_name_that_the_locale_cannot_write(self) -> None:
        script = "from feulgama.debug.demangle import demangled; print(ascii(demangled(['_Z3f\\xe4v', '_Z3foov'])))"
        run = subprocess.run([sys.executable, "-c", script], cwd=CLIENT, env={**os.environ, **ASCII}, capture_output=True,
                             text=True, check=False)
        self.assertEqual((run.stdout, run.stderr), ("{'_Z3f\\xe4v': '_Z3f\\xe4v', '_Z3foov': 'foo()'}\n", ""))

    def test_functions_by_their_names(self) -> None:
        names = Names({0: "prog::total", 1: "std::total", 2: "count::word(char const*)", 3: "total"})
        self.assertEqual([names.named(name) for name in ("total", "prog::total", "word", "count::word", "none")],
                         [[3], [0], [2], [2], []])
        del names.functions[3]
        self.assertEqual(names.named("total"), [0, 1])


TREES = """
struct node { int value; struct node *next; unsigned char low : 3, high : 5; short items[2][3]; };
union both { unsigned int number; unsigned char bytes[4]; };
enum color { RED, GREEN = 5 };
typedef struct node node;
static node last = { 2, 0, 5, 17, { { 1, 2, 3 }, { -4, 5, -6 } } };
static node first = { 1, &last, 2, 30, { { 7, 8, 9 }, { 10, 11, 12 } } };
static union both both = { 0x44434241 };
static const char *names[2] = { "one", "another" };
static enum color color = GREEN;
static _Bool truth = 1;
__attribute__((noinline)) static int sum(node *at, int count) {
    int total = 0;
    for (; at; at = at->next) total += at->value + names[0][0] + both.bytes[count] + color + truth;
    return total;
}
__attribute__((export_name("_start"))) void start(void) { last.value += sum(&first, 1); }
"""


@unittest.skipUnless(dwarf.IS_THERE, "needs python3-pyelftools")
@unittest.skipIf(MISSING, f"needs {' '.join(MISSING)} of Debian's clang-14, lld-14 and llvm-14")
class Trees(unittest.TestCase):
    """Expressions over structures, unions, arrays and pointers of C: what C says of the program's initial values."""
    dwarf = "-g"

    def setUp(self) -> None:
        folder = Path(self.enterContext(tempfile.TemporaryDirectory()))
        module = built_c(folder, "trees", TREES, self.dwarf, "-O0")
        shim = self.enterContext(feulgama.Shim(SHIM))
        self.commands = Commands(open_debugger(shim, module, module.read_bytes(), [], {}, None))
        list(self.commands.answer("break sum"))
        list(self.commands.answer("continue"))

    def test_values(self) -> None:
        wanted = {
            "at->value": "int 1", "at->next->value": "int 2", "(*at).next->items[1][2]": "short -6",
            "first.low": "unsigned char 2 '\\x02'",
            "first.high": "unsigned char 30 '\\x1e'", "last.low + last.high": "22", "at->items[0]": "short[3] [7, 8, 9]",
            "*at->next": "struct node {value = 2, next = 0x0, low = 5 '\\x05', high = 17 '\\x11', "
                         "items = [[1, 2, 3], [-4, 5, -6]]}",
            "both.bytes[1]": "unsigned char 66 'B'", "both": "union both {number = 1145258561, bytes = 'ABCD'}",
            "names[1][2]": "char 111 'o'", "color": "enum color GREEN", "color == 5": "1", "truth": "_Bool true",
            "&at->next == &first.next": "1", "((node *) &last)->value": "int 2", "(struct node *) &last == at->next": "1",
            "at + 1 > at": "1", "count": "int 1", "*(at->items[1] + 2)": "short 12", "at->none": None, "count.value": None}
        for text, value in wanted.items():
            with self.subTest(text):
                if value is None:
                    self.assertRaises(feulgama.FeulgamaError, lambda: list(self.commands.answer(f"print {text}")))
                else:
                    self.assertEqual(list(self.commands.answer(f"print {text}")), [value])
        self.assertIn("'another'", list(self.commands.answer("print names[1]"))[0])

    def test_a_member_is_watched(self) -> None:
        list(self.commands.answer("watch at->next->value"))
        list(self.commands.answer("delete 1"))
        self.assertRegex(list(self.commands.answer("continue"))[0], r"at->next->value was 2, is \d+")


class TreesOfDwarf5(Trees):
    """The same with the newer form of descriptions and line tables."""
    dwarf = "-gdwarf-5"

    def test_lines(self) -> None:
        self.assertIn("breakpoint 1 at 1:14 <sum> trees.c:13", list(self.commands.answer("info breakpoints"))[0])
