"""What is put into a module: functions from the library, functions for segments, types and globals."""
from __future__ import annotations

from collections import Counter
from dataclasses import dataclass, field

from feulgama.lowering import segments
from feulgama.lowering.body import rewritten
from feulgama.lowering.errors import Refusal
from feulgama.lowering.forms import DATA_DROP, MEMORY_COPY, MEMORY_FILL, MEMORY_INIT
from feulgama.lowering.library import library
from feulgama.wasm import opcodes as op
from feulgama.wasm import writer as w

NAMES = {MEMORY_INIT: "memory.init", DATA_DROP: "data.drop", MEMORY_COPY: "memory.copy", MEMORY_FILL: "memory.fill"}
THREE, ONE_TO_WIDE, NOTHING = b"\x60\x03\x7f\x7f\x7f\0", b"\x60\x01\x7f\x01\x7e", b"\x60\0\0"
SEED = 0x9E3779B97F4A7C15


@dataclass(slots=True)
class Additions:
    """What was added up to now. `functions` is how many there are without the added ones, `globals_` the same of globals;
    `types` are all types, each in its bytes; `segments` the bytes of passive segments, None of the others."""
    types: list[bytes]
    functions: int
    globals_: int
    segments: list[bytes | None]
    seed: int = SEED
    bodies: list[tuple[int, bytes]] = field(default_factory=list)
    names: dict[int, str] = field(default_factory=dict)
    new_types: list[bytes] = field(default_factory=list)
    new_globals: list[bytes] = field(default_factory=list)
    replaced: Counter[str] = field(default_factory=Counter)
    _known: dict[object, int] = field(default_factory=dict)
    _indices: dict[bytes, int] = field(default_factory=dict)

    def known_types(self) -> dict[bytes, int]:
        """The indices of all types."""
        if not self._indices:
            self._indices = {one: at for at, one in reversed([*enumerate(self.types)])}
        return self._indices

    def type_index(self, kind: bytes) -> int:
        """The index of a type, which is added if it is not there."""
        known = self.known_types()
        if kind not in known:
            known[kind] = len(self.types) + len(self.new_types)
            self.new_types.append(kind)
        return known[kind]

    def function(self, name: str, kind: bytes, data: bytes) -> int:
        """A new function; its index."""
        index = self.functions + len(self.bodies)
        self.bodies.append((self.type_index(kind), w.sized(data)))
        self.names[index] = f"lowered.{name}"
        return index

    def state(self, name: str) -> int:
        """The global that has the time that has passed, or the state of the random numbers."""
        return self._global(name, op.I64, 0 if name == "clock" else self.seed)

    def _global(self, key: object, kind: int, value: int) -> int:
        if key not in self._known:
            constant = w.i64((value + 2**63) % 2**64 - 2**63) if kind == op.I64 else w.i32(value)
            self._known[key] = self.globals_ + len(self.new_globals)
            self.new_globals.append(bytes([kind, 1]) + constant + bytes([op.END]))
        return self._known[key]

    def helper(self, name: str) -> int:
        """A function of the library, which is added once."""
        key = ("helper", name)
        if key not in self._known:
            index = library().index(name)
            assert index is not None
            self._known[key] = self.function(name, library().type_of(index), self.library_body(index))
        return self._known[key]

    def library_body(self, index: int) -> bytes:
        """The body of a function of the library, in which the imports became accesses of globals."""
        return rewritten(library().body(index), index, LibraryEdits(self)).data

    def bulk(self, number: int, segment: int) -> bytes:
        """The call in place of an instruction on a range of memory."""
        self.replaced[NAMES[number]] += 1
        if number in (MEMORY_COPY, MEMORY_FILL):
            return w.call(self.helper(NAMES[number].replace(".", "_")))
        if segment >= len(self.segments):
            raise Refusal(f"there is no data segment {segment}")
        key = (number, segment)
        if key not in self._known:
            self._known[key] = self._init(segment) if number == MEMORY_INIT else self._drop(segment)
        return w.call(self._known[key])

    def _left(self, segment: int) -> int | None:
        """The global that says how many bytes a segment has left; None of one that is not passive, which has none left."""
        data = self.segments[segment]
        return None if data is None else self._global(("left", segment), op.I32, len(data))

    def _init(self, segment: int) -> int:
        data, left = self.segments[segment], self._left(segment)
        word = self.function(f"data_{segment}", ONE_TO_WIDE, segments.word_body(data)) if data else None
        said = "i32.const 0" if left is None else f"global.get {left}"
        contents = segments.init_body(self.helper("memory_init_test"), word, said)
        return self.function(f"memory_init_{segment}", THREE, contents)

    def _drop(self, segment: int) -> int:
        return self.function(f"data_drop_{segment}", NOTHING, segments.drop_body(self._left(segment)))


class LibraryEdits:
    """What takes the place of calls in functions of the library."""

    def __init__(self, additions: Additions) -> None:
        self._additions = additions

    def call(self, index: int) -> bytes | None:
        """An access of a global, or a call of another helper."""
        found = library().state(index)
        if found is None:
            names = {at: name for name, at in library().module.exports.items()}
            return w.call(self._additions.helper(names[index]))
        at = self._additions.state(found[0])
        return w.set_global(at) if found[1] else w.get_global(at)

    def indirect(self, kind: int) -> bytes | None:
        raise Refusal("the library has no table")

    def bulk(self, number: int, segment: int) -> bytes:
        raise Refusal("the library has no such instruction")

    def operation(self, word: str) -> bytes:
        raise Refusal(f"the library has {word}")

    def note(self, what: str) -> None:
        raise Refusal(f"the library has a {what}")
