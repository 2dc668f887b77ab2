"""A module that does what another does, counts the turns of that one, and keeps the last turn that wrote some bytes.

The counts are globals, which no reply shows. So at the beginning of each function and each loop, and now and then
between them, they are operands for a turn. Writes after a given turn it stops at, by a breakpoint.
"""
from __future__ import annotations

from collections.abc import Iterator
from dataclasses import dataclass

from feulgama.config import Config
from feulgama.debug.counted_body import WIDE_STORES, Counted, Tests
from feulgama.debug.look import Place
from feulgama.errors import FeulgamaError
from feulgama.wasm import opcodes as op
from feulgama.wasm import writer as w
from feulgama.wasm.module import HEAD, Module
from feulgama.wasm.reader import Reader
from feulgama.wasm.writer import Code

MOST_WATCHED, MOST_BYTES = 64, 262_144
TYPES, FUNCTIONS, GLOBALS, ELEMENTS, CODE = 1, 3, 6, 9, 10
TURNS, LAST, OLD = range(3)
ADDED_TYPES = [b"\x60\1\x7e\0", b"\x60\3\x7f\x7f\x7e\0", b"\x60\3\x7f\x7e\x7e\0"]


class NotWatchableError(FeulgamaError):
    """Memory, or a module, that cannot be watched."""


@dataclass(frozen=True, slots=True)
class Watch:
    """What is looked for: writes to `size` bytes from an address on; only those that change one, if `changes` is set.
    `before` are the bytes that are there at the first turn."""
    address: int
    size: int
    changes: bool
    before: bytes

    def chunks(self) -> Iterator[tuple[int, int]]:
        """The bytes as parts that one load reads: their addresses and sizes."""
        at = 0
        while at < self.size:
            size = next(size for size in (8, 4, 2, 1) if size <= self.size - at)
            yield self.address + at, size
            at += size


@dataclass(frozen=True, slots=True)
class Watched:
    """The module. It stops at `stop` after each write that comes later than the turn that was given: there the turn is
    local 0. At `keeps` the last operand is the turn of a write that comes no later. At each of `shows` the last operand is
    how many turns of the original are made. The last write that comes no later is the last operand at `stop`, and the
    one below the last at `shows`; 0 if there was none."""
    data: bytes
    stop: Place
    keeps: Place
    shows: frozenset[Place]


def watched(module: Module, config: Config, watch: Watch, after: int) -> Watched:
    """The module that stops at the writes after a turn. Raises NotWatchableError if there can be none."""
    found = Maker(module, config, watch, False).made(after)
    if len(found.data) > MOST_BYTES:
        found = Maker(module, config, watch, True).made(after)
    if len(found.data) > MOST_BYTES:
        raise NotWatchableError(f"the module is too large to be watched: with a test at each store it has {len(found.data)} "
                                f"bytes, and a module may have {MOST_BYTES}")
    return found


class Maker:
    """Makes such a module of another one; with `is_short` one of fewer bytes, which takes more turns."""

    def __init__(self, module: Module, config: Config, watch: Watch, is_short: bool) -> None:
        self._module, self._config, self._watch, self._is_short = module, config, watch, is_short
        self._sections = dict(sections(module.sent))
        self._globals = Reader(self._sections.get(GLOBALS, b"\0")).unsigned()
        self._hit = len(module.imports) + len(module.indices)
        self._helpers: dict[bytes, tuple[int, int, bytes]] = {}
        self._tests = Tests(watch.address, watch.size, self._global(TURNS), self._global(LAST), self._hit, self._store,
                            self._system_call)
        self._check_table()

    def _check_table(self) -> None:
        """A system call in the table would write unseen."""
        writing = {index for index, (_, name, _) in enumerate(self._module.imports) if written(name, self._config)}
        part = Reader(self._sections.get(ELEMENTS, b"\0"))
        for _ in range(part.unsigned()):
            part.unsigned()
            while part.byte() != op.END:
                part.signed()
            if writing & set(part.vector(part.unsigned)):
                raise NotWatchableError("a system call that writes is in the table; what it writes cannot be watched")

    def _global(self, which: int) -> int:
        return self._globals + which

    def made(self, after: int) -> Watched:
        """The module."""
        bodies, shows = [], []
        for function in self._module.functions:
            counted = Counted(self._module, function, self._tests, self._is_short)
            bodies.append(counted.body)
            shows += [Place(function.index, place) for place in counted.shows]
        hit, stop, keeps = self._hit_function(after)
        helpers = sorted(self._helpers.values())
        kinds = [len(self._module.types), *(kind for _, kind, _ in helpers)]
        found = dict(self._sections)
        found[TYPES] = grown(found.get(TYPES, b"\0"), ADDED_TYPES)
        found[FUNCTIONS] = grown(found.get(FUNCTIONS, b"\0"), [w.unsigned(kind) for kind in kinds])
        found[GLOBALS] = grown(found.get(GLOBALS, b"\0"), [b"\x7e\1" + w.i64(number) + bytes([op.END])
                                                           for number in self._initial()])
        found[CODE] = w.vector([*bodies, hit.body(), *(body for _, _, body in helpers)])
        data = HEAD + b"".join(bytes([number]) + w.sized(found[number]) for number in sorted(found))
        return Watched(data, Place(self._hit, stop), Place(self._hit, keeps), frozenset(shows))

    def _initial(self) -> list[int]:
        """What the added globals have at the first turn."""
        before = [self._watch.before[at - self._watch.address:][:size] for at, size in self._watch.chunks()]
        return [0, 0, *(int.from_bytes(part, "little", signed=len(part) == 8) for part in before)]

    # The functions that are added.

    def _helper(self, key: bytes, kind: int, body: bytes) -> int:
        """A function that is called in the place of instructions which are all alike."""
        return self._helpers.setdefault(key, (self._hit + 1 + len(self._helpers), kind, body))[0]

    def _store(self, opcode: int, data: bytes) -> int:
        """The function that is called for a store, with the turns that follow as its last argument."""
        part = Reader(data, 1)
        part.unsigned()
        code = Code().add(w.get(0), w.get(1), data, *self._tests.of(w.get(0), part.unsigned(), op.ACCESSES[opcode][1]))
        body = code.add(w.IF, w.get(2), w.call(self._hit)).end().body()
        return self._helper(data, len(self._module.types) + 1 + (opcode in WIDE_STORES), body)

    def _system_call(self, index: int) -> int | None:
        """The function that is called for one that writes; None if this one does not. No turns of a segment follow it."""
        name, kind = self._module.imports[index][1:] if index < len(self._module.imports) else ("", 0)
        ranges = written(name, self._config)
        if not ranges:
            return None
        count = len(self._module.types[kind].params)
        code = Code().add(*map(w.get, range(count)), w.call(index), w.tee(count), w.I32_EQZ)
        for number, (parameter, size) in enumerate(ranges):
            code.add(*self._tests.of(w.get(parameter), 0, size), *([w.I32_OR] if number else []))
        code.add(w.I32_AND, w.IF, w.i64(0), w.call(self._hit)).end().add(w.get(count))
        return self._helper(w.call(index), kind, code.body(1))

    def _hit_function(self, after: int) -> tuple[Code, int, int]:
        """Keeps the turn of a write, and stops if it is a later one; and the places `stop` and `keeps`. The turns that
        are counted and not made yet are its argument."""
        parts, code = list(self._watch.chunks()) if self._watch.changes else [], Code()
        for number, (at, size) in enumerate(parts):
            code.add(w.i32(at), w.load(size), w.get_global(self._global(OLD + number)), w.I64_NE,
                     *([w.I32_OR] if number else []))
        if parts:
            code.add(w.IF)
        for number, (at, size) in enumerate(parts):
            code.add(w.i32(at), w.load(size), w.set_global(self._global(OLD + number)))
        last = self._global(LAST)
        code.add(w.get_global(self._global(TURNS)), w.get(0), w.I64_SUB, w.tee(0), w.i64(after), w.I64_GT_S, w.IF)
        stop = code.add(w.get_global(last)).count
        keeps = code.add(w.DROP).otherwise().add(w.get(0)).count
        code.add(w.set_global(last)).end()
        return (code.end() if parts else code), stop, keeps


def sections(data: bytes) -> Iterator[tuple[int, bytes]]:
    """The sections of a module: their numbers and contents."""
    reader = Reader(data, len(HEAD))
    while not reader.is_at_end():
        number, part = reader.byte(), reader.part()
        yield number, part.take(part.end - part.at)


def grown(content: bytes, items: list[bytes]) -> bytes:
    """A section with more items at its end."""
    reader = Reader(content)
    count = reader.unsigned()
    return w.unsigned(count + len(items)) + content[reader.at:] + b"".join(items)


def written(name: str, config: Config) -> list[tuple[int, int]]:
    """Where a system call writes: the parameters that are addresses, each with how many bytes are written there."""
    texts = {"args": [text.encode() for text in config.args],
             "environ": [f"{name}={value}".encode() for name, value in config.env.items()]}
    kind, _, rest = name.partition("_")
    if name == "fd_write":
        return [(3, 4)]
    if kind in texts and rest == "sizes_get":
        return [(0, 4), (1, 4)]
    if kind in texts and rest == "get" and texts[kind]:
        return [(0, 4 * len(texts[kind])), (1, sum(len(text) + 1 for text in texts[kind]))]
    return []
