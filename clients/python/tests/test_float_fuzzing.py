"""Random modules of binaryen's wasm-opt, which have floats everywhere: original and lowered do the same in node."""
from __future__ import annotations

import json
import random
import shutil
import subprocess
import tempfile
import unittest
from dataclasses import dataclass
from pathlib import Path

import pytest

from feulgama.lowering import lower
from feulgama.lowering import source as s
from feulgama.lowering.source import sections_of
from feulgama.wasm import writer as w
from feulgama.wasm.module import HEAD
from feulgama.wasm.reader import Reader
from tests.float_suite import REINTERPRET

MISSING = [name for name in ("wasm-opt", "node") if shutil.which(name) is None]
NEEDED = "apt-get install -y --no-install-recommends binaryen nodejs"
# NaNs become 0, since two engines may give two of them; the features are those that are lowered.
OPTIONS = ("--denan", "--mvp-features", "--enable-nontrapping-float-to-int", "--enable-bulk-memory", "--enable-sign-ext",
           "--enable-mutable-globals", "--enable-multivalue")
TYPES = {0x7F: "i32", 0x7E: "i64", 0x7D: "f32", 0x7C: "f64"}
FEW, MANY = 20, 1000
# Calls each export with the numbers that its parameters get, and prints a list for each module of what each call did. A float
# is told as its bits; in a lowered module it has been an integer. A stack that is full is told too, as it may differ.
NODE = """
const fs = require("fs"), view = new DataView(new ArrayBuffer(8));
const read = { f32: ["setUint32", "getFloat32"], f64: ["setBigUint64", "getFloat64"] };
const tell = { f32: ["setFloat32", "getUint32"], f64: ["setFloat64", "getBigUint64"] };
function given(kind, bits, lowered) {
  const number = kind.endsWith("64") ? BigInt("0x" + bits) : parseInt(bits, 16);
  if (lowered || kind[0] === "i") return number;
  view[read[kind][0]](0, number);
  return view[read[kind][1]](0);
}
function told(kind, value, lowered) {
  if (!lowered && kind[0] === "f") {
    view[tell[kind][0]](0, value);
    value = view[tell[kind][1]](0);
  }
  return kind.endsWith("64") ? BigInt.asUintN(64, value).toString(16) : (value >>> 0).toString(16);
}
function call(exports, one, lowered) {
  try {
    const found = exports[one.name](...one.params.map((kind, at) => given(kind, one.operands[at], lowered)));
    const results = one.results.length > 1 ? found : [found].slice(0, one.results.length);
    return one.results.map((kind, at) => told(kind, results[at], lowered)).join(" ");
  } catch (error) {
    return error instanceof RangeError ? "stack" : error instanceof WebAssembly.RuntimeError ? "trap" : String(error);
  }
}
const answers = JSON.parse(fs.readFileSync(process.argv[1])).map(([hex, lowered, calls]) => {
  try {
    const exports = new WebAssembly.Instance(new WebAssembly.Module(Buffer.from(hex, "hex"))).exports;
    return calls.map(one => call(exports, one, lowered));
  } catch (error) { return [String(error)]; }
});
console.log(JSON.stringify(answers));
"""


@dataclass(frozen=True, slots=True)
class Called:
    """A call of an export: the types of what it takes and gives, and its operands in bits."""
    name: str
    params: tuple[str, ...]
    results: tuple[str, ...]
    operands: tuple[str, ...]


@dataclass(slots=True)
class Fuzzed:
    """A module of the fuzzer, without its imports: what they logged becomes a sum in a global, which a function gives."""
    data: bytes

    def part(self, number: int) -> Reader:
        """A section; an empty one if it is not there."""
        found = [one for one in sections_of(self.data) if one.number == number]
        return Reader(self.data, found[0].begin, found[0].end) if found else Reader(b"\0")

    def kinds(self) -> list[tuple[tuple[str, ...], tuple[str, ...]]]:
        """The types of functions."""
        part = self.part(s.TYPE)

        def words() -> tuple[str, ...]:
            return tuple(TYPES[one] for one in part.vector(part.byte))

        return [(words(), words()) for _ in range(part.unsigned()) if part.byte() == 0x60]

    def imports(self) -> list[int]:
        """The types of the imports, all of which are functions that log a number."""
        part = self.part(s.IMPORT)
        return [(part.name(), part.name(), part.byte(), part.unsigned())[3] for _ in range(part.unsigned())]

    def own(self) -> list[int]:
        part = self.part(s.FUNCTION)
        return part.vector(part.unsigned)

    def closed(self) -> bytes:
        """The module without imports, and with an export `logged`."""
        kinds, imports = self.kinds(), self.imports()
        count, sums = self.part(s.GLOBAL).unsigned(), self.part(s.GLOBAL).unsigned()
        bodies = [w.sized(b"\0" + self.logging(kinds[kind][0][0], sums) + b"\x0b") for kind in imports]
        functions = len(imports) + len(self.own())
        more = {s.TYPE: (b"", b"\x60\0\x01\x7e", 1),
                s.FUNCTION: (b"".join(map(w.unsigned, imports)), w.unsigned(len(kinds)), len(imports) + 1),
                s.GLOBAL: (b"", b"\x7e\x01\x42\0\x0b", 1),
                s.EXPORT: (b"", w.sized(b"logged") + b"\0" + w.unsigned(functions), 1),
                s.CODE: (b"".join(bodies), w.sized(b"\0" + w.get_global(count) + b"\x0b"), len(imports) + 1)}
        found = HEAD
        for one in sections_of(self.data):
            if one.number in more:
                part, (before, after, extra) = self.part(one.number), more[one.number]
                contents = w.unsigned(part.unsigned() + extra) + before + part.take(part.end - part.at) + after
                found += bytes([one.number]) + w.sized(contents)
            elif one.number not in (0, s.IMPORT):
                found += self.data[one.first:one.end]
        return found

    @staticmethod
    def logging(kind: str, sums: int) -> bytes:
        """sum = sum * 31 + the number's bits."""
        bits = w.get(0) + REINTERPRET[kind] + (b"" if kind.endswith("64") else b"\xad")
        return w.get_global(sums) + w.i64(31) + b"\x7e" + bits + b"\x7c" + w.set_global(sums)

    def calls(self) -> list[Called]:
        """Two calls of each function that is exported, and what was logged after them."""
        kinds, whole = self.kinds(), [*self.imports(), *self.own()]
        part, found = self.part(s.EXPORT), list[Called]()
        for _ in range(part.unsigned()):
            name, what, index = part.name(), part.byte(), part.unsigned()
            if what == 0:
                params, results = kinds[whole[index]]
                found += [Called(name, params, results, tuple(map(operand, params))) for _ in range(2)]
                found.append(Called("logged", (), ("i64",), ()))
        return found


def operand(kind: str) -> str:
    """The bits of an operand, which is no NaN."""
    if kind == "f64":
        return f"{random.getrandbits(1) << 63 | random.randrange(0x7FF) << 52 | random.getrandbits(52):x}"
    if kind == "f32":
        return f"{random.getrandbits(1) << 31 | random.randrange(0xFF) << 23 | random.getrandbits(23):x}"
    return f"{random.choice((0, 1, random.getrandbits(int(kind[1:])))):x}"


def fuzzed(count: int, seed: int) -> list[Fuzzed]:
    """Modules of the fuzzer, from random bytes."""
    random.seed(seed)
    found = []
    with tempfile.TemporaryDirectory() as folder:
        given, out = Path(folder, "in"), Path(folder, "out.wasm")
        for _ in range(count):
            given.write_bytes(random.randbytes(random.randrange(300, 6000)))
            subprocess.run(["wasm-opt", "-ttf", given, *OPTIONS, "-o", out], check=True, capture_output=True)
            found.append(Fuzzed(out.read_bytes()))
    return found


def answers(modules: list[tuple[bytes, bool, list[Called]]]) -> list[list[str]]:
    """What each call of each module did."""
    with tempfile.NamedTemporaryFile("w") as file:
        calls = [[{"name": one.name, "params": one.params, "results": one.results, "operands": one.operands} for one in called]
                 for _, _, called in modules]
        json.dump([(data.hex(), is_lowered, one) for (data, is_lowered, _), one in zip(modules, calls)], file)
        file.flush()
        run = subprocess.run(["node", "-e", NODE, file.name], capture_output=True, check=True, timeout=600)
    found: list[list[str]] = json.loads(run.stdout)
    return found


@unittest.skipIf(MISSING, f"{', '.join(MISSING)} not there: {NEEDED}")
class Random(unittest.TestCase):
    def same(self, count: int, seed: int) -> tuple[int, int, int]:
        """Compares modules; how many calls there were, how many of them trapped, and how many numbers were logged."""
        total = trapped = logged = 0
        for begin in range(0, count, 50):
            modules = fuzzed(min(50, count - begin), seed + begin)
            originals = [(one.closed(), False, one.calls()) for one in modules]
            lowered = [(lower(data).data, True, calls) for data, _, calls in originals]
            for (data, _, calls), right, found in zip(originals, answers(originals), answers(lowered)):
                self.assertEqual(len(right), len(calls), right)
                if "stack" not in (*right, *found):
                    self.assertEqual(found, right, data.hex())
                total += len(calls)
                trapped += right.count("trap")
                logged += len({said for said, one in zip(right, calls) if one.name == "logged"})
        return total, trapped, logged

    def test_few(self) -> None:
        total, trapped, logged = self.same(FEW, 1)
        self.assertGreater(total, 5 * FEW)
        self.assertGreater(logged, FEW)
        self.assertLess(trapped, total // 2)

    @pytest.mark.slow
    def test_many(self) -> None:
        total, _, _ = self.same(MANY, 2)
        self.assertGreater(total, 5 * MANY)
