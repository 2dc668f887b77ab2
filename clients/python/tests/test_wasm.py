"""Modules: instructions as the shim lists them, names, and bytes with faults."""
from __future__ import annotations

import json
import random
import subprocess
import tempfile
import unittest

import pytest

from feulgama.debug import dwarf
from feulgama.debug.look import Place
from feulgama.debug.symbols import Symbols
from feulgama.model import Frame, Value, ValueType
from feulgama.wasm.module import Module, decode
from feulgama.wasm.names import names_of
from feulgama.wasm.reader import NotAModuleError
from tests.support import CLIENT, EXAMPLES, SHIM, some_programs


def listing(module: Module) -> list[str]:
    """The lines of `wasm-shim check --list`."""
    return ["ok"] + [f"{function.index} {found.place} {found.text}"
                     for function in module.functions for found in function.instructions]


class Listings(unittest.TestCase):
    @pytest.mark.program
    def test_as_the_shim_lists(self) -> None:
        modules = [data for data, _ in some_programs(11, 40, 100)]
        modules += [(CLIENT / "examples/words.wasm").read_bytes()]
        for script in sorted(EXAMPLES.glob("*.jsonl")):
            put = json.loads(script.read_text().splitlines()[0])
            modules += [bytes.fromhex(put["hex"])] if put.get("hex", "").startswith("0061736d") else []
        compared = 0
        for data in modules:
            with tempfile.NamedTemporaryFile() as file:
                file.write(data)
                file.flush()
                run = subprocess.run([SHIM, "check", "--list", file.name], capture_output=True, check=False, text=True)
            if run.returncode == 0:
                compared += 1
                self.assertEqual(listing(decode(data)), run.stdout.splitlines())
        self.assertGreater(compared, 40)


class Names(unittest.TestCase):
    def test_of_a_c_program(self) -> None:
        names = names_of(decode((CLIENT / "examples/words.wasm").read_bytes()))
        self.assertEqual(names.functions[3], "count")
        self.assertEqual(names.named("end_word"), [7])
        self.assertEqual(names.function(99), "func99")

    def test_of_locals(self) -> None:
        part = bytes([1, 0, 2, 0, 1]) + b"a" + bytes([2, 2]) + b"bc"
        section = b"\x04name" + bytes([2, len(part)]) + part
        names = names_of(decode(b"\0asm\1\0\0\0\0" + bytes([len(section)]) + section))
        self.assertEqual((names.local(0, 0), names.local(0, 1), names.local(0, 2)), ("a", None, "bc"))


class Faults(unittest.TestCase):
    def test_bytes_that_are_cut_or_bent(self) -> None:
        """Nothing but NotAModuleError is raised, whatever the bytes are."""
        random.seed(5)
        data = (CLIENT / "examples/words.wasm").read_bytes()
        for _ in range(400):
            bent = bytearray(data[:random.randrange(len(data))])
            for _ in range(random.randint(0, 3)):
                if bent:
                    bent[random.randrange(len(bent))] = random.randrange(256)
            try:
                names_of(decode(bytes(bent)))
            except NotAModuleError:
                pass


@unittest.skipUnless(dwarf.IS_THERE, "needs python3-pyelftools")
class BentDescriptions(unittest.TestCase):
    """Custom sections of `clang -g` with faults: nothing is raised, at most lines and variables are missing."""

    def test_random_bytes(self) -> None:
        random.seed(6)
        data = (CLIENT / "examples/words.wasm").read_bytes()
        frame = Frame(3, (), (Value(ValueType.I32, 17),) * 4, 0, ())
        for _ in range(300):
            module = decode(data)
            for name in module.customs:
                if name.startswith(".debug") and random.random() < 0.6:
                    module.customs[name] = self.bent(module.customs[name])
            symbols = Symbols(module, [])
            symbols.variables(frame, Place(3, 60), lambda _address, length: bytes(length))
            if symbols.lines is not None:
                for file in symbols.lines.files:
                    symbols.lines.breakable(file, 1)

    def bent(self, data: bytes) -> bytes:
        found = bytearray(data if random.random() < 0.8 else data[:random.randrange(len(data))])
        for _ in range(random.randint(1, 4)):
            if found:
                found[random.randrange(len(found))] = random.randrange(256)
        return bytes(found)
