"""The functions that are put into modules: helpers.wasm, which sdk/c/build-helpers makes of sdk/c."""
from __future__ import annotations

import re
from dataclasses import dataclass
from functools import cache
from pathlib import Path

from feulgama.wasm.module import Module, decode
from feulgama.wasm.reader import Reader

# Functions that take the place of calls, and are named as they are.
CALL = re.compile("(?:clock|fd|path|poll|proc|random|sock)_.*")
FILE = Path(__file__).with_name("helpers.wasm")
TYPE_CODES = {"i32": 0x7F, "i64": 0x7E}


@dataclass(frozen=True, slots=True)
class Library:
    """The module of the helpers."""
    module: Module

    def index(self, name: str) -> int | None:
        """The function of a name."""
        return self.module.exports.get(name)

    def answer(self, call: str) -> int | None:
        """The function that takes the place of a call; None if there is none."""
        return self.index(call) if CALL.fullmatch(call) else None

    def type_of(self, index: int) -> bytes:
        """The type of a function, as bytes in the shortest form."""
        return self._type(self.module.indices[index - len(self.module.imports)])

    def _type(self, number: int) -> bytes:
        kind = self.module.types[number]
        return b"\x60" + b"".join(bytes([len(part), *(TYPE_CODES[one] for one in part)])
                                  for part in (kind.params, kind.results))

    def state(self, index: int) -> tuple[str, bool] | None:
        """Of an import the state that it reads or sets, and whether it sets it."""
        if index >= len(self.module.imports):
            return None
        name = self.module.imports[index][1]
        return name.removeprefix("set_"), name.startswith("set_")

    def body(self, index: int) -> Reader:
        """The body of a function."""
        function = self.module.function(index)
        assert function is not None
        start = self.module.code_at
        return Reader(self.module.data, start + function.begin, start + function.end)


@cache
def library() -> Library:
    """The library, which is read once."""
    return Library(decode(FILE.read_bytes()))
