"""The lowering of floats: each operation beside Python's floats, which are those of IEEE 754, and where floats may be."""
from __future__ import annotations

import math
import random
import unittest
from collections.abc import Sequence

import feulgama
from bench.floats import turns
from feulgama.lowering import lower
from feulgama.lowering.library import library
from feulgama.wasm import writer as w
from feulgama.wasm.module import decode
from tests import float_modules as f
from tests.support import SHIM

# A tenth more than 120, 146, 169, 38 and 289.
MOST_TURNS = {"f64.add": 132, "f64.mul": 160, "f64.div": 185, "f64.lt": 41, "f64.sqrt": 317}


def some(kind: str, count: int) -> list[int]:
    """Encodings: of any bits; of numbers near whole ones and near 1; of few bits; subnormal ones; and the special ones."""
    size, width = {"f32": (23, 32), "f64": (52, 64)}[kind]
    infinity = (1 << width - 1) - (1 << size)
    found = [0, 1, (1 << size) - 1, 1 << size, infinity - 1, infinity, f.CANONICAL[kind], infinity + 1]
    for _ in range(count):
        found += [random.getrandbits(width - 1), f.bits_of(kind, random.randrange(-99, 99) / 2), random.getrandbits(size),
                  f.bits_of(kind, random.uniform(0.5, 4)), random.randrange(infinity >> size) << size]
    return [bits | random.getrandbits(1) << width - 1 for bits in found]


class Operations(unittest.TestCase):
    def setUp(self) -> None:
        random.seed(11)
        self.shim = self.enterContext(feulgama.Shim(SHIM))

    def answers(self, word: str, operands: Sequence[tuple[int, ...]]) -> list[int]:
        """What an operation gives, in bits."""
        size = f.SIZES[f.result_of(word)]
        ran = self.shim.run(lower(f.asking(word, operands)).data)
        self.assertIsNone(ran.exit.trap, word)
        return [int.from_bytes(ran.stdout[at:at + size], "little") for at in range(0, len(ran.stdout), size)]

    def same(self, word: str, operands: Sequence[tuple[int, ...]], expected: Sequence[int | None]) -> None:
        """Compares. None is any NaN that is quiet."""
        kind, found = f.result_of(word), self.answers(word, operands)
        self.assertEqual(len(found), len(operands))
        for given, one, right in zip(operands, found, expected):
            if right is None:
                self.assertEqual(one & f.CANONICAL[kind], f.CANONICAL[kind], (word, given))
            else:
                self.assertEqual(one, right, (word, [f"{bits:x}" for bits in given]))

    def test_two_operands(self) -> None:
        for kind in ("f32", "f64"):
            pairs = [(a, b) for a, b in zip(some(kind, 30), random.sample(some(kind, 30), 158))]
            numbers = [(f.number_of(kind, a), f.number_of(kind, b)) for a, b in pairs]
            for name, operation in f.BINARY.items():
                found = [operation(a, b) for a, b in numbers]
                # The sign of a NaN is none of arithmetic's, and a NaN has no bits in Python.
                expected = [a & ~(1 << 8 * f.SIZES[kind] - 1) | b & 1 << 8 * f.SIZES[kind] - 1 if name == "copysign" else
                            None if math.isnan(one) else f.bits_of(kind, one) for (a, b), one in zip(pairs, found)]
                self.same(f"{kind}.{name}", pairs, expected)
            for name, relation in f.RELATIONS.items():
                self.same(f"{kind}.{name}", pairs, [int(relation(a, b)) for a, b in numbers])

    def test_one_operand(self) -> None:
        for kind in ("f32", "f64"):
            given, sign = some(kind, 30), 1 << 8 * f.SIZES[kind] - 1
            for name, operation in f.UNARY.items():
                found = [operation(f.number_of(kind, bits)) for bits in given]
                expected = [bits & ~sign if name == "abs" else bits ^ sign if name == "neg" else
                            None if math.isnan(one) else f.bits_of(kind, one) for bits, one in zip(given, found)]
                self.same(f"{kind}.{name}", [(bits,) for bits in given], expected)

    def test_truncations(self) -> None:
        """Those that saturate, of all; those that trap, of those that are in range, and each of three outside."""
        for number, word in enumerate(f.SATURATIONS):
            kind, size, is_signed = f.operand_of(word), 8 * f.SIZES[word[:3]], word.endswith("_s")
            low, high = (-2**(size - 1), 2**(size - 1) - 1) if is_signed else (0, 2**size - 1)
            edges = [f.bits_of(kind, edge + step) for edge in (low, high) for step in (-1, -0.5, 0, 0.5, 1)]
            given = [*some(kind, 20), *edges, *(f.bits_of(kind, random.uniform(-2, 2) * 2**size) for _ in range(20))]
            numbers = [f.number_of(kind, bits) for bits in given]
            truncated = [math.trunc(one) if math.isfinite(one) else 0 if math.isnan(one) else int(math.copysign(2**70, one))
                         for one in numbers]
            self.same(word, [(bits,) for bits in given], [min(max(one, low), high) % 2**size for one in truncated])
            inside = [bits for bits, one, real in zip(given, truncated, numbers) if low <= one <= high and real == real]
            trapping = word.replace("_sat", "")
            self.same(trapping, [(bits,) for bits in inside],
                      [math.trunc(f.number_of(kind, bits)) % 2**size for bits in inside])
            for bits in (f.bits_of(kind, high + 1.0), f.bits_of(kind, low * 1.01 - 1), f.CANONICAL[kind]):
                ran = self.shim.run(lower(f.asking(trapping, [(bits,)])).data)
                self.assertEqual(ran.exit.trap, "unreachable", (trapping, number))

    def test_conversions(self) -> None:
        """Of integers, where Python rounds an integer to a double once, and for an f32 the integer has to be odd below."""
        for kind in ("f32", "f64"):
            for of, size in (("i32", 32), ("i64", 64)):
                numbers = [0, 1, 2**size - 1, 2**(size - 1), 2**24 + 1, 2**24 + 3, *(2**at - 1 for at in range(20, size))]
                numbers += [random.getrandbits(size) >> random.randrange(size) for _ in range(30)]
                numbers += [2**54 + 2**30 + 1, 2**60 + 2**36 + 1, 2**53 + 1, 2**53 + 3] if size == 64 else []
                for sign in "su":
                    values = [(one + 2**(size - 1)) % 2**size - 2**(size - 1) if sign == "s" else one for one in numbers]
                    self.same(f"{kind}.convert_{of}_{sign}", [(one,) for one in numbers],
                              [f.bits_of(kind, once(one) if kind == "f32" else one) for one in values])

    def test_formats(self) -> None:
        """Promotion loses nothing, and demotion is what Python does to store a float."""
        given = some("f32", 40)
        self.same("f64.promote_f32", [(bits,) for bits in given],
                  [None if f.number_of("f32", bits) != f.number_of("f32", bits) else
                   f.bits_of("f64", f.number_of("f32", bits)) for bits in given])
        given = [*some("f64", 40), *(f.bits_of("f64", f.number_of("f32", bits) * (1 + random.choice((0, 1, -1)) * 2.0**-24))
                                     for bits in some("f32", 40) if bits & 0x7F800000 != 0x7F800000)]
        self.same("f32.demote_f64", [(bits,) for bits in given],
                  [None if f.number_of("f64", bits) != f.number_of("f64", bits) else
                   f.bits_of("f32", f.number_of("f64", bits)) for bits in given])


def once(number: int) -> float:
    """An integer as a double that rounds to an f32 as the integer does: what is below 40 bits is in the lowest of them."""
    lost = max(abs(number).bit_length() - 40, 0)
    kept = abs(number) >> lost << lost | (1 << lost if abs(number) & (1 << lost) - 1 else 0)
    return float(math.copysign(kept, number))


class Places(unittest.TestCase):
    def run_lowered(self, data: bytes) -> tuple[bytes, str | None]:
        with feulgama.Shim(SHIM) as shim:
            ran = shim.run(lower(data).data)
        return ran.stdout, ran.exit.trap

    def test_everywhere(self) -> None:
        self.assertEqual(self.run_lowered(f.round_trip()), (f.ROUND_TRIP_SAYS, None))

    def test_what_is_said(self) -> None:
        """Each instruction by its word, and each type."""
        replaced = lower(f.round_trip()).replaced
        self.assertEqual((replaced["f64.const"], replaced["f32.const"], replaced["f64.sqrt"]), (5, 3, 1))
        self.assertEqual((replaced["type f32"], replaced["type f64"]), (5, 6))
        self.assertEqual(replaced["select with a type"], 1)

    def test_places_stay(self) -> None:
        found = lower(f.round_trip())
        module = decode(found.data)
        for function, original in zip(module.functions, found.originals):
            self.assertEqual(len(function.instructions), len(original.offsets))

    def test_only_what_is_called(self) -> None:
        """The functions of the library that the module needs, each once."""
        module = decode(lower(f.asking("f64.mul", [(1, 2), (3, 4)])).data)
        self.assertEqual(len(module.functions), 2)
        self.assertEqual(len(module.functions[1].instructions),
                         len(library().module.functions[library().module.exports["f64_mul"]
                                                        - len(library().module.imports)].instructions))

    def test_types_that_fall_together(self) -> None:
        """A function is called as one of its own type alone, whichever type more of the functions have."""
        seven = {2: f.bits_of("f64", 7).to_bytes(8, "little"), 3: (7).to_bytes(8, "little")}
        for functions in (((2, 1), (3, 1)), ((2, 2), (3, 1)), ((2, 1), (3, 2)), ((2, 1),), ((3, 1),)):
            kinds = [kind for kind, count in functions for _ in range(count)]
            for at, own in enumerate(kinds):
                for kind in (2, 3):
                    expected = (seven[own], None) if kind == own else (b"", "indirect call type mismatch")
                    self.assertEqual(self.run_lowered(f.through_table(functions, kind, at)), expected, (functions, kind, at))
            self.assertEqual(self.run_lowered(f.through_table(functions, 2, 9)), (b"", "undefined element"))

    def test_a_type_that_is_taken(self) -> None:
        """A function of the module's own may have the type by which another one could be kept apart."""
        data = f.through_table(((3, 2), (2, 1)), 2, 2, [b"\x60\x01\x7f\x02\x7e\x7f"], at_end=(4, w.i64(7) + w.i32(0)))
        self.assertEqual(self.run_lowered(data), (f.bits_of("f64", 7).to_bytes(8, "little"), None))
        data = f.through_table(((3, 2), (2, 1)), 2, 3, [b"\x60\x01\x7f\x02\x7e\x7f"], at_end=(4, w.i64(7) + w.i32(0)))
        self.assertEqual(self.run_lowered(data), (b"", "indirect call type mismatch"))

    def test_twice_is_once(self) -> None:
        for data in (f.round_trip(), f.through_table(((2, 1), (3, 1)), 2, 0)):
            once_ = lower(data)
            again = lower(once_.data)
            self.assertEqual((again.data, again.replaced), (once_.data, {}))


class Turns(unittest.TestCase):
    def test_as_few_as_the_page_says(self) -> None:
        for word, most in MOST_TURNS.items():
            self.assertLessEqual(turns(word), most, word)
