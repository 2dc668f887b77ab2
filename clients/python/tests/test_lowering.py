"""The lowering: what each part of it gives, beside what the standards say and what node does with the original."""
from __future__ import annotations

import contextlib
import io
import json
import random
import shutil
import subprocess
import tempfile
import time
import unittest
from pathlib import Path
from unittest import mock

import pytest

import feulgama
from feulgama.cli import main
from feulgama.lowering import LoweringError, Options, lower
from feulgama.lowering.library import FILE
from feulgama.lowering.source import DATA, sections_of
from feulgama.lowering.words import code
from feulgama.wasm import writer as w
from feulgama.wasm.module import HEAD, decode
from feulgama.wasm.names import names_of
from tests import float_modules as f
from tests import written_modules as m
from tests.support import EXIT_7, FOREVER_BYTES, SHIM, TOP, TRAPPING_BYTES, full_disk
from tests.written_modules import Written

BUILD = TOP / "sdk/c/build-helpers"
OUTSIDE, UNDEFINED = "out of bounds memory access", "undefined element"
NODE = """
const fs = require("fs");
const answers = JSON.parse(fs.readFileSync(process.argv[1])).map(hex => {
  let said = "", memory;
  const wasi_snapshot_preview1 = { fd_write: (fd, at, count, size) => {
    const view = new DataView(memory.buffer);
    for (let i = 0; i < count; i++)
      said += Buffer.from(memory.buffer, view.getUint32(at + 8 * i, true),
                          view.getUint32(at + 8 * i + 4, true)).toString("hex");
    return 0;
  } };
  const instance = new WebAssembly.Instance(new WebAssembly.Module(Buffer.from(hex, "hex")), { wasi_snapshot_preview1 });
  memory = instance.exports.memory;
  try { instance.exports._start(); return [said, "end"]; } catch (error) { return [said, "trap"]; }
});
console.log(JSON.stringify(answers));
"""


def result(data: bytes) -> tuple[bytes, str | None]:
    """What a module writes once it is lowered, and its trap."""
    with feulgama.Shim(SHIM) as shim:
        ran = shim.run(lower(data).data)
    return ran.stdout, ran.exit.trap


def node(modules: list[bytes]) -> list[list[str]]:
    """What node does with modules."""
    with tempfile.NamedTemporaryFile("w") as file:
        json.dump([data.hex() for data in modules], file)
        file.flush()
        run = subprocess.run(["node", "-e", NODE, file.name], capture_output=True, check=True, timeout=120)
    found: list[list[str]] = json.loads(run.stdout)
    return found


def ranges(seed: int, count: int) -> list[bytes]:
    """Modules of random instructions on ranges of memory, some of which end outside."""
    random.seed(seed)
    found = []
    for _ in range(count):
        data = [m.active(0, bytes(random.randrange(256) for _ in range(200))), b"\x01" + w.sized(bytes(range(1, 78)))]
        main = b""
        for _ in range(random.randrange(1, 12)):
            to, of, size = (random.choice((0, 1, 7, 8, 31, 33, 64, 100, 199, random.randrange(300))) for _ in range(3))
            if random.random() < 0.04:
                to = random.choice((65536 - size, 65537 - size, 2**32 - 1, 65536))
            kind = random.randrange(8)
            if kind < 4:
                main += m.operands(to, of, size) + m.COPY
            elif kind < 6:
                main += m.operands(to, random.randrange(-1, 600), size) + m.FILL
            else:
                main += m.operands(to, of % 78, size % 40 if random.random() < 0.9 else size) + m.init(1)
            main += m.drop(1) if random.random() < 0.02 else b""
        found.append(Written(main + m.show(0, 700), [m.WRITER], data=data, has_count=True).bytes())
    return found


class Lowered(unittest.TestCase):
    def test_nothing_to_lower(self) -> None:
        files = [file.read_bytes() for file in TOP.glob("clients/python/examples/*.wasm")]
        for data in (EXIT_7, FOREVER_BYTES, TRAPPING_BYTES, *files):
            found = lower(data)
            self.assertEqual(found.data, data)
            self.assertEqual((found.replaced, found.left_out), ({}, ()))

    def test_copies(self) -> None:
        """As slices of Python, where the ranges overlap too, at all sizes near the widths that are copied at once."""
        start = bytes(range(1, 201))
        main, expected, memory = b"", b"", bytearray(start + bytes(300))
        for size in (0, 1, 7, 8, 9, 31, 32, 33, 64, 71, 100):
            for to, of in ((0, 0), (0, 1), (1, 0), (5, 13), (13, 5), (150, 3), (3, 150), (40, 72), (72, 40)):
                main += m.operands(to, of, size) + m.COPY + m.show(0, 300)
                memory[to:to + size] = memory[of:of + size]
                expected += memory[:300]
        data = Written(main, [m.WRITER], data=[m.active(0, start)]).bytes()
        self.assertEqual(result(data), (expected, None))

    def test_fills(self) -> None:
        main, expected, memory = b"", b"", bytearray(200)
        for number, size in enumerate((0, 1, 7, 8, 9, 31, 32, 33, 64, 100)):
            value = number * 37 + 255
            main += m.operands(number, value, size) + m.FILL + m.show(0, 200)
            memory[number:number + size] = bytes([value % 256]) * size
            expected += memory
        self.assertEqual(result(Written(main, [m.WRITER]).bytes()), (expected, None))

    def test_ranges_outside(self) -> None:
        """Each traps as an access outside does; the ranges that end with memory do not."""
        for numbers, instruction in (((65537, 0, 0), m.COPY), ((0, 65537, 0), m.COPY), ((65536, 0, 1), m.COPY),
                                     ((0, 65530, 7), m.COPY), ((1, 0, -1), m.COPY), ((-1, 0, 1), m.COPY),
                                     ((65537, 7, 0), m.FILL), ((65530, 7, 7), m.FILL), ((-1, 7, -1), m.FILL)):
            data = Written(m.operands(*numbers) + instruction).bytes()
            self.assertEqual(result(data), (b"", OUTSIDE), (numbers, instruction))
        for numbers, instruction in (((65536, 65536, 0), m.COPY), ((65535, 65530, 1), m.COPY), ((65536, 0, 0), m.FILL)):
            self.assertEqual(result(Written(m.operands(*numbers) + instruction).bytes()), (b"", None))

    def test_passive_segments(self) -> None:
        part = bytes(range(100, 177))
        main, expected = b"", bytearray(100)
        for to, of, size in ((0, 0, 77), (3, 5, 20), (90, 76, 1), (99, 77, 0)):
            main += m.operands(to, of, size) + m.init(1)
            expected[to:to + size] = part[of:of + size]
        data = [m.active(0, b""), b"\x01" + w.sized(part)]
        full = Written(main + m.show(0, 100), [m.WRITER], data=data, has_count=True).bytes()
        self.assertEqual(result(full), (bytes(expected), None))
        for after, trap in ((m.operands(0, 0, 0) + m.init(1), None), (m.operands(0, 0, 1) + m.init(1), OUTSIDE),
                            (m.operands(0, 0, 0) + m.init(0), None), (m.operands(0, 0, 1) + m.init(0), OUTSIDE),
                            (m.drop(1), None), (m.drop(0), None)):
            dropped = Written(m.drop(1) + after, data=data, has_count=True).bytes()
            self.assertEqual(result(dropped)[1], trap)
        for numbers in ((0, 70, 8), (65530, 0, 7), (0, 78, 0), (0, -1, 2)):
            outside = Written(m.operands(*numbers) + m.init(1), data=data, has_count=True).bytes()
            self.assertEqual(result(outside)[1], OUTSIDE)

    def test_a_count_alone(self) -> None:
        segment = b"\x02\0" + w.i32(0) + b"\x0b" + w.sized(b"abc")
        data = Written(m.show(0, 3), [m.WRITER], data=[segment], has_count=True).bytes()
        self.assertEqual(result(data), (b"abc", None))
        self.assertEqual(lower(data).replaced, {"data count": 1, "data segment of a later form": 1})

    def test_extended_constants(self) -> None:
        """(5 - 7) * -9 = 18 is where the data are, and 18 + 2 the global."""
        eighteen = m.operands(5, 7) + b"\x6b" + w.i32(-9) + b"\x6c"
        globals_ = [m.RESULT, b"\x7f\0" + eighteen + b"\x0b", b"\x7f\0\x23\x01" + w.i32(2) + b"\x6a\x0b",
                    b"\x7e\x01" + w.i64(-2**63) + w.i64(1) + b"\x7d\x0b"]
        main = code("global.get 2") + m.store_result(0) + code("i32.const 1 global.get 3 i64.store") + m.show(0, 21)
        data = Written(main, [m.WRITER], globals_=globals_, data=[b"\0\x23\x01\x0b" + w.sized(b"abc")]).bytes()
        self.assertEqual(result(data), (b"\x14" + (2**63 - 1).to_bytes(8, "little") + bytes(9) + b"abc", None))
        self.assertEqual(lower(data).replaced, {"extended constant": 4})

    def test_select_and_long_indices(self) -> None:
        main = (m.operands(7, 8, 0) + b"\x1c\x01\x7f" + m.store_result(0) + b"\x3f\x80\x00" + m.store_result(1)
                + w.i32(0) + b"\x11\x82\0\x80\x80\x80\x80\x00" + m.store_result(2) + m.show(0, 3))
        data = Written(main, [m.WRITER], [b"\x60\0\x01\x7f"], functions=[(2, w.i32(9))], table=b"\x01\x70\0\x01",
                       elements=[b"\0" + w.i32(0) + b"\x0b\x01\x01"], globals_=[m.RESULT]).bytes()
        self.assertEqual(result(data), (bytes((8, 1, 9)), None))
        self.assertEqual(lower(data).replaced, {"select with a type": 1, "long index of a table": 1,
                                                "long index of a memory": 1})

    def test_element_segments(self) -> None:
        """Those that are active fill the table; the passive and the declared ones are left out."""
        at = [w.i32(number) + b"\x0b" for number in range(4)]
        elements = [b"\x04" + at[0] + b"\x01\xd2\x01\x0b", b"\x02\0" + at[1] + b"\0\x01\x02",
                    b"\x06\0" + at[2] + b"\x70\x01\xd2\x01\x0b", b"\x01\0\x01\x01", b"\x03\0\x01\x02",
                    b"\x05\x70\x01\xd2\x01\x0b", b"\x07\x70\x01\xd2\x02\x0b"]
        main = b"".join(w.i32(number) + b"\x11\x02\0" + m.store_result(number) for number in range(3)) + m.show(0, 3)
        parts = Written(main, [m.WRITER], [b"\x60\0\x01\x7f"], functions=[(2, w.i32(5)), (2, w.i32(6))],
                        table=b"\x01\x70\0\x04", elements=elements, globals_=[m.RESULT])
        self.assertEqual(result(parts.bytes()), (bytes((5, 6, 5)), None))
        parts.main = w.i32(3) + b"\x11\x02\0\x1a"
        self.assertEqual(result(parts.bytes())[1], "uninitialized element")

    def test_all_at_once(self) -> None:
        """Imports that move are the same ones in calls, in the table, as exports and as names."""
        data = m.rich()
        self.assertEqual(result(data), (m.RICH_SAYS, None))
        found = lower(data)
        module = decode(found.data)
        self.assertEqual([name for _, name, _ in module.imports], ["fd_write"])
        self.assertEqual((module.exports["close"], module.exports["own"]), (1, 2))
        names = names_of(module)
        self.assertEqual([names.function(at) for at in range(3)], ["write", "close", "own"])
        once = ("fd_close", "data count", "data segment of a later form", "extended constant", "select with a type",
                "memory.init", "data.drop", "memory.fill", "memory.copy")
        self.assertEqual(found.replaced, {**dict.fromkeys(once, 1), "element segment of a later form": 3,
                                          "long index of a table": 2})

    def test_a_plain_table_of_imports(self) -> None:
        """A segment of version 1.0 whose functions have moved."""
        main = m.operands(9, 0) + b"\x11\x02\0" + m.store_result(0) + m.show(0, 1, 1)
        data = Written(main, [m.imported("fd_close", 2), m.WRITER], [m.TO_CLOSE], globals_=[m.RESULT],
                       table=b"\x01\x70\0\x01", elements=[b"\0" + w.i32(0) + b"\x0b\x01\0"]).bytes()
        self.assertEqual(result(data), (b"\x08", None))

    def test_the_start_function(self) -> None:
        """One of the module's own keeps its number, after an import that is replaced as well."""
        data = Written(m.show(0, 1, 1), [m.imported("fd_close", 2), m.WRITER], [m.TO_CLOSE], globals_=[m.RESULT],
                       functions=[(0, w.i32(5) + m.store_result(0))], start=b"\x02").bytes()
        self.assertEqual(result(data), (b"\5", None))

    def test_twice_is_once(self) -> None:
        for data in (*ranges(3, 40), m.rich()):
            once = lower(data)
            again = lower(once.data)
            self.assertEqual((again.data, again.replaced), (once.data, {}))

    def test_places_stay(self) -> None:
        """Each instruction of the original is one instruction, at its place, and its offset is known."""
        main = m.operands(7, 8, 0) + m.COPY + m.operands(1, 2, 3) + m.FILL + code("i32.const 0 if nop else nop end")
        data = Written(main + m.show(0, 3), [m.WRITER]).bytes()
        found = lower(data)
        after = decode(found.data)
        original, = found.originals
        self.assertEqual(len(after.functions[0].instructions), len(original.offsets))
        start = data.index(b"\x0a", data.index(b"_start") + 8)
        self.assertEqual(after.functions[0].instructions[7].text, "call 3")
        contents = data[start + 1 + len(w.unsigned(len(data) - start)):]
        self.assertTrue(contents[original.offsets[3]:].startswith(m.COPY))
        self.assertTrue(contents[original.offsets[7]:].startswith(m.FILL))

    @unittest.skipIf(shutil.which("node") is None, "needs node")
    def test_as_node_does(self) -> None:
        """Random instructions on ranges: the original in node, and lowered in node and on the shim."""
        originals = ranges(1, 300)
        lowered = [lower(data).data for data in originals]
        expected = node(originals)
        self.assertGreater(sum(end == "trap" for _, end in expected), 20)
        self.assertGreater(sum(end == "end" for _, end in expected), 100)
        self.assertEqual(node(lowered), expected)
        with feulgama.Shim(SHIM) as shim:
            for data, (said, end) in zip(lowered[:40], expected):
                ran = shim.run(data)
                self.assertEqual((ran.stdout.hex(), ran.exit.trap), (said, OUTSIDE if end == "trap" else None))


class Custom(unittest.TestCase):
    def setUp(self) -> None:
        words = [w.unsigned(at) + m.text(name) for at, name in enumerate(("close", "write", "main"))]
        names = b"\x01" + w.sized(w.vector(words))
        locals_ = b"\x02" + w.sized(b"\x01\x02\x01\0" + m.text("here"))
        self.customs = [b"\0" + w.sized(m.text("name") + names + locals_), b"\0" + w.sized(m.text(".debug_line") + b"xyz"),
                        b"\0" + w.sized(m.text("producers") + b"abc")]
        self.data = Written(m.operands(0, 0, 0) + m.COPY, [m.imported("fd_close", 2), m.WRITER], [m.TO_CLOSE],
                            locals_=b"\x01\x01\x7f", customs=b"".join(self.customs)).bytes()

    def test_names_go_with_their_functions(self) -> None:
        found = decode(lower(self.data).data)
        names = names_of(found)
        self.assertEqual([names.function(at) for at in range(3)], ["write", "close", "main"])
        self.assertEqual([name for _, name, _ in found.imports], ["fd_write"])
        self.assertEqual(names.local(2, 0), "here")
        self.assertIn(b"lowered.memory_copy", found.customs["name"])
        self.assertEqual(found.customs["producers"], b"abc")

    def test_offsets_of_code_are_left_out(self) -> None:
        found = lower(self.data)
        self.assertEqual(found.left_out, (".debug_line",))
        self.assertNotIn(".debug_line", decode(found.data).customs)
        only_count = Written(b"", has_count=True, data=[m.active(0, b"")], customs=self.customs[1]).bytes()
        self.assertEqual(lower(only_count).left_out, ())
        self.assertIn(".debug_line", decode(lower(only_count).data).customs)

    def test_strip(self) -> None:
        self.assertEqual(decode(lower(self.data, Options(strip=True)).data).customs, {})
        plain = Written(b"").bytes()
        self.assertEqual(lower(plain + self.customs[0], Options(strip=True)).data, plain)

    def test_faults_in_names(self) -> None:
        """A section that means nothing is left out, and nothing else is."""
        for fault in (b"\x01\x05\x01", b"\x01\x02\x01\xff", b"\x01\x04\x01\0\x7fa", b"\x01"):
            data = Written(m.operands(0, 0, 0) + m.COPY, customs=b"\0" + w.sized(m.text("name") + fault)).bytes()
            found = lower(data)
            self.assertEqual(found.left_out, ("name",))
            self.assertEqual(result(data), (b"", None))


class Refused(unittest.TestCase):
    def refusal(self, data: bytes, options: Options = Options()) -> str:
        with self.assertRaises(LoweringError) as found:
            lower(data, options)
        return str(found.exception)

    def test_instructions(self) -> None:
        """Each with the function and the place."""
        refused = {b"\xfd\x0c": "SIMD", b"\xfe\x03\0": "threads", b"\x06\x40": "exceptions", b"\x12\0": "tail calls",
                   b"\xd2\0": "references", b"\xfb\0": "garbage", b"\xfc\x0e\0\0": "tables",
                   b"\xfc\x99\x01": "no instruction", b"\x27": "no instruction", b"\x11\0\x01": "several",
                   b"\xfc\x0a\0\x01": "several memories", b"\x02\x7b": "v128: SIMD", b"\x1c\x01\x7b": "v128",
                   b"\x43\0\0": "end too soon", b"\x1c\x02\x7d\x7d": "one type", b"\x28\x42\0\0": "several memories",
                   b"\x2a\x42\0\0": "several memories", b"\xfc\x08\0\0": "section 12", b"\x10\xff\xff\xff\xff\xff\x01": "bits",
                   b"\x10\xff\xff\xff\xff\x1f": "32 bits", b"\x10\x80\x80\x80\x80\x80\0": "32 bits"}
        for instruction, words in refused.items():
            said = self.refusal(Written(b"\x01\x02\x40\x0b" + instruction).bytes())
            self.assertRegex(said, f"^offset [0-9]+, function 0, place 2: .*{words}")

    def test_offset(self) -> None:
        data = Written(b"\x01\xfd\x0c").bytes()
        self.assertIn(f"offset {data.index(bytes([0x01, 0xFD, 0x0C])) + 1},", self.refusal(data))

    def test_sections(self) -> None:
        parts: dict[str, Written] = {
            "type.*v128: SIMD": Written(b"", types=[b"\x60\x01\x7b\0"]),
            "type.*form 0x5f": Written(b"", types=[b"\x5f\0"]),
            "global.*v128: SIMD": Written(b"", globals_=[b"\x7b\0\x0b"]),
            "import 0, env put: only": Written(b"", [m.imported("put", 0, "env")]),
            "import 0, .* fd_shut: there is no such call": Written(b"", [m.imported("fd_shut", 0)]),
            "import 0, .* memory_copy: there is no such call": Written(b"", [m.imported("memory_copy", 0)]),
            "import 0, .* fd_close: the call has another type": Written(b"", [m.imported("fd_close", 0)]),
            "import 0, env m: it is a memory": Written(b"", [m.text("env") + m.text("m") + b"\x02\0\x01"]),
            "table.*2 tables": Written(b"", table=b"\x02\x70\0\x01\x70\0\x01"),
            "table.*0x6f": Written(b"", table=b"\x01\x6f\0\x01"),
            "a table with the flags 0x04": Written(b"", table=b"\x01\x70\x04\x01"),
            "element.*null": Written(b"", table=b"\x01\x70\0\x01", elements=[b"\x04" + w.i32(0) + b"\x0b\x01\xd0\x70\x0b"]),
            "element.*no function 9": Written(b"", table=b"\x01\x70\0\x01", elements=[b"\0" + w.i32(0) + b"\x0b\x01\x09"]),
            "data.*several": Written(b"", data=[b"\x02\x01" + w.i32(0) + b"\x0b\0"]),
            "global 0, which is no constant": Written(b"", globals_=[b"\x7f\0\x23\0\x0b"]),
            "reads global 0, which": Written(b"", globals_=[m.RESULT, b"\x7f\0\x23\0\x0b"]),
            "does not give one i32": Written(b"", globals_=[b"\x7f\0" + w.i64(0) + b"\x0b"]),
            "more than 100 function types": Written(
                b"", types=[b"\x60\x07" + bytes(0x7F - 2 * (at >> bit & 1) for bit in range(7)) + b"\0" for at in range(103)],
                table=b"\x01\x70\0\x67", functions=[(2 + at, b"") for at in range(103)],
                elements=[b"\0" + w.i32(0) + b"\x0b\x67" + bytes(range(103))]),
            "does not give one f32": Written(b"", globals_=[b"\x7d\0" + w.i32(0) + b"\x0b"]),
        }
        for words, part in parts.items():
            self.assertRegex(self.refusal(part.bytes()), f"^offset [0-9]+, section .*{words}")

    def test_files(self) -> None:
        for data, words in ((b"", "do not begin"), (HEAD[:7], "do not begin"), (b"\0asm\x0d\0\x01\0", "component"),
                            (HEAD + b"\x0d\x02\x01\0", "exceptions"), (HEAD + b"\x0e\0", "section 14"),
                            (HEAD + b"\x03\x01\0\x01\x01\0", "section 1 cannot"), (HEAD + b"\x01\x05\0", "too late"),
                            (HEAD + b"\x01\x02\0\0", "bytes follow"), (HEAD + b"\x0c\x01\x01", "how many data"),
                            (HEAD + b"\x05\x03\x01\x03\x01", "shared"), (HEAD + b"\x05\x03\x01\x04\x01", "64 bits"),
                            (HEAD + b"\x0a" + w.sized(bytes(2**20)), "1048576")):
            self.assertIn(words, self.refusal(data))

    def test_a_call_that_is_not_wanted(self) -> None:
        data = Written(b"", [m.imported("fd_close", 2)], [m.TO_CLOSE]).bytes()
        self.assertIn("fd_close: it is refused", self.refusal(data, Options(frozenset(["fd_close"]))))
        self.assertEqual(lower(data, Options(frozenset(["fd_read"]))).replaced, {"fd_close": 1})

    @pytest.mark.clock
    def test_hostile_bytes(self) -> None:
        """Mutated modules end with a reason or with a module, which needs no lowering again, and soon."""
        random.seed(5)
        together = f.through_table(((2, 1), (3, 1)), 2, 0)
        sources = [*ranges(9, 10), *[m.rich()] * 10, *[f.round_trip()] * 10, *[together] * 5, f.asking("f64.add", [(1, 2)])]
        begin, refused = time.monotonic(), 0
        for number in range(10_000):
            data = bytearray(random.choice(sources))
            for _ in range(random.randrange(1, 6)):
                at = random.randrange(8, len(data))
                match random.randrange(4):
                    case 0:
                        data[at] = random.choice((0, 1, 0x7F, 0x80, 0xFC, 0xFF, random.randrange(256)))
                    case 1:
                        del data[at:at + random.randrange(1, 9)]
                    case 2:
                        data[at:at] = bytes(random.randrange(256) for _ in range(random.randrange(1, 5)))
                    case _:
                        data[at:at + 5] = b"\xff\xff\xff\xff\x0f"
                if len(data) < 10:
                    break
            try:
                found = lower(bytes(data))
            except LoweringError as error:
                refused += 1
                self.assertTrue(str(error))
                continue
            if number % 10 == 0:
                self.assertEqual(lower(found.data).data, found.data)
        self.assertGreater(refused, 1000)
        self.assertLess(time.monotonic() - begin, 120)


class Helpers(unittest.TestCase):
    def test_built_bytes(self) -> None:
        """The bytes in the package are those that Debian's clang 14.0.6 makes of sdk/c."""
        clang = shutil.which("clang-14")
        if clang is None or shutil.which("wasm-ld-14") is None:
            self.skipTest("apt-get install -y --no-install-recommends clang-14 lld-14")
        version = subprocess.run([clang, "--version"], capture_output=True, text=True, check=True).stdout.splitlines()[0]
        if version != "Debian clang version 14.0.6":
            self.skipTest(f"the bytes are those of Debian's clang 14.0.6, and this is: {version}")
        with tempfile.TemporaryDirectory() as folder:
            subprocess.run([BUILD, f"{folder}/helpers.wasm"], check=True)
            self.assertEqual(Path(folder, "helpers.wasm").read_bytes(), FILE.read_bytes())

    def test_they_need_nothing(self) -> None:
        """No function reads a global, as a stack pointer would be, or calls through a table, and there is no data."""
        module = decode(FILE.read_bytes())
        words = [instruction.text for function in module.functions for instruction in function.instructions]
        self.assertFalse([word for word in words if word.startswith(("global", "call_indirect", "memory.grow"))])
        self.assertNotIn(DATA, [one.number for one in sections_of(module.data)])


class Command(unittest.TestCase):
    def setUp(self) -> None:
        folder = Path(self.enterContext(tempfile.TemporaryDirectory()))
        self.file, self.out = folder / "in.wasm", folder / "out.wasm"
        self.file.write_bytes(Written(m.operands(0, 0, 4) + m.COPY + m.operands(0, 8) + code("call 1 drop") + m.show(0, 8),
                                      [m.WRITER, m.imported("random_get", 2)], [b"\x60\x02\x7f\x7f\x01\x7f"]).bytes())

    def call(self, *words: str) -> tuple[int, str, str]:
        with contextlib.redirect_stdout(io.StringIO()) as out, contextlib.redirect_stderr(io.StringIO()) as err:
            status = main(["lower", *words, str(self.file)])
        return status, out.getvalue(), err.getvalue()

    def test_list(self) -> None:
        status, out, err = self.call("--list")
        self.assertEqual((status, out), (0, "1 memory.copy\n1 random_get\n"))
        self.assertIn("no secrets", err)
        self.assertFalse(self.out.exists())

    def test_output_and_seed(self) -> None:
        said = []
        for seed in ("1", "1", "0x2"):
            self.assertEqual(self.call("-o", str(self.out), "--seed", seed)[:2], (0, ""))
            with feulgama.Shim(SHIM) as shim:
                said.append(shim.run(self.out.read_bytes()).stdout)
        self.assertEqual(said, [m.xorshift(1, 8), m.xorshift(1, 8), m.xorshift(2, 8)])

    def test_a_full_disk(self) -> None:
        """The module stays that was to be lowered where it is, and nothing else is left."""
        before = self.file.read_bytes()
        with full_disk(100):
            self.assertEqual(self.call("-o", str(self.file))[::2], (1, "feulgama: [Errno 27] File too large\n"))
        self.assertEqual((self.file.read_bytes(), list(self.file.parent.iterdir())), (before, [self.file]))
        self.assertEqual(self.call("-o", str(self.file))[0], 0)
        self.assertEqual(self.file.read_bytes(), lower(before).data)

    def test_refused(self) -> None:
        status, out, err = self.call("--refuse", "random_get", "-o", str(self.out))
        self.assertEqual((status, out, self.out.exists()), (1, "", False))
        self.assertRegex(err, f"^feulgama: {self.file}: offset .* random_get: it is refused by an option\n$")

    def test_standard_output(self) -> None:
        run = subprocess.run([TOP / "clients/python/bin/feulgama", "lower", self.file], capture_output=True, check=True)
        self.assertEqual(run.stdout, lower(self.file.read_bytes()).data)

    def test_standard_streams(self) -> None:
        """As the adapters of containers call it: the list is apart from the module, and a reason has no name of a file."""
        words = [str(TOP / "clients/python/bin/feulgama"), "lower", "--list", "-o", "-", "-"]
        data = self.file.read_bytes()
        run = subprocess.run(words, input=data, capture_output=True, check=True)
        self.assertEqual(run.stdout, lower(data).data)
        self.assertEqual(run.stderr.splitlines()[:2], [b"1 memory.copy", b"1 random_get"])
        run = subprocess.run(words, input=b"no module", capture_output=True, check=False)
        self.assertEqual((run.returncode, run.stdout), (1, b""))
        self.assertTrue(run.stderr.startswith(b"feulgama: -: "), run.stderr)

    def test_no_memory(self) -> None:
        with mock.patch("feulgama.lowering.command.lower", side_effect=MemoryError):
            self.assertEqual(self.call(), (1, "", "feulgama: out of memory\n"))
