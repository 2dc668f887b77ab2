"""The lowering of a module: section by section, and each body. What needs none comes out as it went in."""
from __future__ import annotations

from array import array
from collections.abc import Callable, Mapping
from dataclasses import dataclass, field

from feulgama.lowering import floats
from feulgama.lowering import source as s
from feulgama.lowering.additions import SEED, Additions
from feulgama.lowering.apart import Apart, Kind, encoded
from feulgama.lowering.body import Body, rewritten, u32, value_type
from feulgama.lowering.constants import Constant, constant
from feulgama.lowering.errors import LoweringError, Refusal
from feulgama.lowering.floats import without_floats
from feulgama.lowering.library import library
from feulgama.lowering.names import renamed
from feulgama.wasm import opcodes as op
from feulgama.wasm import writer as w
from feulgama.wasm.module import HEAD
from feulgama.wasm.reader import NotAModuleError, Reader

WASI = b"wasi_snapshot_preview1"
CALLS = frozenset(("args_get", "args_sizes_get", "environ_get", "environ_sizes_get", "fd_write", "proc_exit", "sched_yield"))
FUNCREF = 0x70
# Custom sections that hold offsets of the code or numbers of sections, and so are of no use if the code has moved.
BOUND = (b".debug_", b"reloc.", b"linking", b"sourceMappingURL", b"external_debug_info", b"metadata.code.")


@dataclass(frozen=True, slots=True)
class Options:
    """What a caller may choose: calls that are refused, the seed of the random numbers, whether custom sections go."""
    refused: frozenset[str] = frozenset()
    seed: int = SEED
    strip: bool = False


@dataclass(frozen=True, slots=True)
class Lowered:
    """A lowered module. `replaced` says how often each thing was, `left_out` which custom sections are gone. `originals`
    has for each function of the module's own where it and its instructions were, from the first byte of the contents of
    the original's code section, and `kinds` its parameters and its results, as they were; `first` is the index of the
    first of them, in both modules."""
    data: bytes
    replaced: Mapping[str, int]
    left_out: tuple[str, ...]
    originals: tuple[Body, ...]
    kinds: tuple[Kind, ...]
    first: int


def lower(data: bytes, options: Options = Options()) -> Lowered:
    """A module that does what this one does, in the profile. Raises LoweringError with a place and a reason."""
    return Lowering(data, options).result()


@dataclass(frozen=True, slots=True)
class Elements:
    """A segment of the table: where it goes, None if no instruction could use it; its functions by their indices in the
    original; and whether it was not in the form of version 1.0."""
    offset: Constant | None
    functions: tuple[int, ...]
    is_changed: bool


@dataclass(slots=True)
class Lowering:
    """The state of one translation."""
    data: bytes
    options: Options
    sections: list[s.Section] = field(init=False)
    new: dict[int, bytes | None] = field(init=False, default_factory=dict)
    imports: list[tuple[bytes, str, int, bool]] = field(init=False, default_factory=list)
    moves: list[int] = field(init=False, default_factory=list)
    own: list[int] = field(init=False, default_factory=list)
    bodies: list[Body] = field(init=False, default_factory=list)
    has_memory: bool = field(init=False, default=False)
    added: Additions = field(init=False)
    apart: Apart = field(init=False)

    def result(self) -> Lowered:
        """Does all of it."""
        self.sections = s.sections_of(self.data)
        self.added = Additions([], 0, 0, [], self.options.seed)
        self.apart = Apart([], self.added)
        for number, read in ((s.TYPE, self._types), (s.IMPORT, self._imports), (s.FUNCTION, self._functions),
                             (s.TABLE, self._tables), (s.MEMORY, self._memories), (s.GLOBAL, self._globals),
                             (s.EXPORT, self._exports), (s.START, self._start), (s.ELEMENT, self._elements),
                             (s.DATA, self._data), (s.DATA_COUNT, self._data_count), (s.CODE, self._code)):
            self._in_section(number, read)
        first, originals = len(self.imports), self._originals()
        if not self.added.replaced:
            return self._unchanged(originals)
        self._put_additions()
        data, left_out = self._written()
        return Lowered(data, dict(self.added.replaced), left_out, originals, self._kinds(), first)

    def _kinds(self) -> tuple[Kind, ...]:
        """The types of the functions, as they were."""
        return tuple(self.apart.kinds[kind] for kind in self.own)

    def _in_section(self, number: int, read: Callable[[Reader], bytes | None]) -> None:
        """Reads a section, if it is there; its new contents if it has to change."""
        section = next((one for one in self.sections if one.number == number), None)
        if section is None:
            if number == s.CODE and self.own:
                raise LoweringError(f"offset {len(self.data)}: there is no code section")
            return
        reader = Reader(self.data, section.begin, section.end)
        try:
            found = read(reader)
            if not reader.is_at_end():
                raise Refusal("bytes follow its entries")
        except (Refusal, NotAModuleError) as error:
            raise LoweringError(f"offset {reader.at}, section {number} ({s.WORDS[number]}): {error}") from error
        if found is not None or number == s.DATA_COUNT:
            self.new[number] = found

    def _moved(self, index: int) -> int:
        """The new index of a function: imports that stay are before those that are replaced; all others keep theirs."""
        return self.moves[index] if index < len(self.moves) else index

    def _function(self, reader: Reader) -> int:
        """An index of a function."""
        index = u32(reader)
        if index >= len(self.imports) + len(self.own):
            raise Refusal(f"there is no function {index}")
        return index

    def _types(self, reader: Reader) -> bytes | None:
        for _ in range(u32(reader)):
            if (form := reader.byte()) != 0x60:
                raise Refusal(f"type {len(self.added.types)} has the form {form:#04x}; only function types are lowered")
            params, results = (bytes([self._value_type(reader) for _ in range(u32(reader))]) for _ in range(2))
            self.apart.kinds.append((params, results))
            self.added.types.append(encoded(without_floats(params), without_floats(results)))
        return w.vector(self.added.types) if self.added.replaced else None

    def _value_type(self, reader: Reader) -> int:
        """A type; those of floats are counted, since they are replaced."""
        kind = value_type(reader)
        if kind in floats.TYPES:
            self.added.replaced[f"type {floats.TYPES[kind]}"] += 1
        return kind

    def _type(self, reader: Reader) -> int:
        index = u32(reader)
        if index >= len(self.added.types):
            raise Refusal(f"there is no type {index}")
        return index

    def _imports(self, reader: Reader) -> bytes | None:
        for number in range(u32(reader)):
            begin = reader.at
            module, name = (reader.take(u32(reader)) for _ in range(2))
            text = f"import {number}, {module.decode('utf-8', 'replace')} {name.decode('utf-8', 'replace')}"
            if (kind := reader.byte()) != 0:
                what = {1: "a table", 2: "a memory", 3: "a global", 4: "a tag"}.get(kind, "of no known kind")
                raise Refusal(f"{text}: it is {what}; only functions are replaced")
            index = self._type(reader)
            stays = self._stays(text, module, name.decode("utf-8", "replace"), encoded(*self.apart.kinds[index]))
            self.imports.append((self.data[begin:reader.at], name.decode("utf-8", "replace"), index, stays))
        if all(entry[3] for entry in self.imports):
            return None
        order = sorted(range(len(self.imports)), key=lambda at: not self.imports[at][3])
        self.moves = sorted(range(len(order)), key=order.__getitem__)
        return w.vector([entry[0] for entry in self.imports if entry[3]])

    def _stays(self, text: str, module: bytes, name: str, kind: bytes) -> bool:
        """Whether an import stays, since the shim has the call."""
        if module != WASI:
            raise Refusal(f"{text}: only calls of {WASI.decode()} are replaced")
        if name in CALLS:
            return True
        helper = library().answer(name)
        if helper is None:
            raise Refusal(f"{text}: there is no such call")
        if name in self.options.refused:
            raise Refusal(f"{text}: it is refused by an option")
        if library().type_of(helper) != kind:
            raise Refusal(f"{text}: the call has another type")
        self.added.replaced[name] += 1
        return False

    def _functions(self, reader: Reader) -> None:
        self.own = [self._type(reader) for _ in range(u32(reader))]
        self.added.functions = len(self.imports) + len(self.own)

    def _limits(self, reader: Reader, what: str) -> None:
        flags = reader.byte()
        if flags > 1:
            raise Refusal(f"{what} with the flags {flags:#04x}: shared ones, and those of 64 bits, are not lowered")
        for _ in range(flags + 1):
            u32(reader)

    def _tables(self, reader: Reader) -> None:
        count = u32(reader)
        for _ in range(count):
            if (kind := reader.byte()) != FUNCREF:
                raise Refusal(f"a table of {kind:#04x}: only tables of functions are lowered")
            self._limits(reader, "a table")
        if count > 1:
            raise Refusal(f"{count} tables: several of them are not lowered")

    def _memories(self, reader: Reader) -> None:
        count = u32(reader)
        for _ in range(count):
            self._limits(reader, "a memory")
        if count > 1:
            raise Refusal(f"{count} memories: several of them are not lowered")
        self.has_memory = count == 1

    def _globals(self, reader: Reader) -> bytes | None:
        known, entries, is_changed = list[Constant | None](), list[bytes](), False
        for _ in range(u32(reader)):
            kind, mutable = self._value_type(reader), reader.byte()
            if mutable > 1:
                raise Refusal(f"a global with the flags {mutable:#04x} is not lowered")
            found = self._constant(reader, kind, known)
            known.append(None if mutable else found)
            entries.append(without_floats(bytes([kind])) + bytes([mutable]) + found.data)
            is_changed |= found.replaced is not None
        self._known = known
        self.added.globals_ = len(entries)
        return w.vector(entries) if is_changed else None

    _known: list[Constant | None] = field(init=False, default_factory=list)

    def _constant(self, reader: Reader, kind: int, known: list[Constant | None]) -> Constant:
        found = constant(reader, kind, known)
        if found.replaced is not None:
            self.added.replaced[found.replaced] += 1
        return found

    def _exports(self, reader: Reader) -> bytes | None:
        entries = []
        for _ in range(u32(reader)):
            name, kind = reader.take(u32(reader)), reader.byte()
            if kind > 3:
                raise Refusal("a tag is exported; exceptions are not lowered")
            index = self._moved(self._function(reader)) if kind == 0 else u32(reader)
            entries.append(w.sized(name) + bytes([kind]) + w.unsigned(index))
        return w.vector(entries) if self._has_moved() else None

    def _has_moved(self) -> bool:
        """Whether an import has another index."""
        return any(index != at for at, index in enumerate(self.moves))

    def _start(self, reader: Reader) -> bytes | None:
        index = self._moved(self._function(reader))
        return w.unsigned(index) if self._has_moved() else None

    def _elements(self, reader: Reader) -> bytes | None:
        segments = [self._element(reader) for _ in range(u32(reader))]
        active = [one for one in segments if one.offset is not None]
        self.apart.choose(self._type_of(index) for one in active for index in one.functions)
        entries = [b"\0" + one.offset.data + w.vector([w.unsigned(self._entry(index)) for index in one.functions])
                   for one in active if one.offset is not None]
        is_changed = any(one.is_changed for one in segments) or self._has_moved() or bool(self.added.bodies)
        return w.vector(entries) if is_changed else None

    def _type_of(self, index: int) -> int:
        """The type of a function by its index in the original."""
        return self.imports[index][2] if index < len(self.imports) else self.own[index - len(self.imports)]

    def _entry(self, index: int) -> int:
        """What is in the table for a function of the original."""
        return self.apart.entry(self._moved(index), self._type_of(index))

    def _element(self, reader: Reader) -> Elements:
        """A segment."""
        flags = u32(reader)
        if flags > 7:
            raise Refusal(f"an element segment with the flags {flags:#x}")
        is_active, has_table, has_expressions = not flags & 1, flags & 2, flags & 4
        if is_active and has_table and u32(reader) != 0:
            raise Refusal("an element segment names a table; several of them are not lowered")
        offset = self._constant(reader, op.I32, self._known) if is_active else None
        if flags & 3 and (kind := reader.byte()) != (FUNCREF if has_expressions else 0):
            raise Refusal(f"elements of the kind {kind:#04x}: only functions are lowered")
        found = [self._reference(reader) if has_expressions else self._function(reader) for _ in range(u32(reader))]
        if flags:
            self.added.replaced["element segment of a later form"] += 1
        return Elements(offset, tuple(found), bool(flags) or offset is not None and offset.replaced is not None)

    def _reference(self, reader: Reader) -> int:
        """The expression of an element."""
        if (opcode := reader.byte()) != 0xD2:
            raise Refusal("an element that is null is not lowered" if opcode == 0xD0 else
                          f"byte {opcode:#04x} is not lowered in an element")
        index = self._function(reader)
        if reader.byte() != op.END:
            raise Refusal("the expression of an element has several instructions")
        return index

    def _data(self, reader: Reader) -> bytes | None:
        entries, is_later = list[bytes](), False
        for _ in range(u32(reader)):
            flags = u32(reader)
            if flags > 2 or flags == 2 and u32(reader) != 0:
                raise Refusal("a data segment names a memory; several of them are not lowered")
            offset = self._constant(reader, op.I32, self._known) if flags != 1 else None
            contents = reader.take(u32(reader))
            self.added.segments.append(contents if offset is None else None)
            if offset is not None:
                entries.append(b"\0" + offset.data + w.sized(contents))
            if flags:
                self.added.replaced["data segment of a later form"] += 1
            is_later |= bool(flags) or offset is not None and offset.replaced is not None
        return w.vector(entries) if is_later else None

    def _data_count(self, reader: Reader) -> None:
        if u32(reader) != len(self.added.segments):
            raise Refusal("it does not say how many data segments there are")
        self.added.replaced["data count"] += 1

    def _code(self, reader: Reader) -> bytes | None:
        """The bodies without their number, to which others are added."""
        if u32(reader) != len(self.own):
            raise Refusal("it has another number of functions than section 3")
        edits, entries = OwnEdits(self), list[bytes]()
        for at in range(len(self.own)):
            begin = reader.at
            part = reader.part()
            body = rewritten(part, len(self.imports) + at, edits)
            self.bodies.append(body)
            entries.append(w.sized(body.data) if body.is_changed else self.data[begin:part.end])
        return b"".join(entries)

    def _originals(self) -> tuple[Body, ...]:
        """The bodies as offsets in the contents of the code section."""
        start = next((one.begin for one in self.sections if one.number == s.CODE), 0)
        return tuple(Body(body.begin - start, body.end - start, b"", body.is_changed,
                          array("L", (at - start for at in body.offsets)), body.locals) for body in self.bodies)

    def _unchanged(self, originals: tuple[Body, ...]) -> Lowered:
        """What there is nothing to lower in, without custom sections if they go."""
        data, left_out = HEAD, []
        for one in self.sections:
            if one.number == 0 and self.options.strip:
                left_out.append(self._name(one))
            else:
                data += self.data[one.first:one.end]
        return Lowered(data, {}, tuple(left_out), originals, self._kinds(), len(self.imports))

    def _put_additions(self) -> None:
        """Puts functions, types and globals that were added into their sections."""
        added = self.added
        added.functions = len(self.imports) + len(self.own)
        stubs, bodies = list[bytes](), self.new.get(s.CODE) or b""
        if not self.has_memory and any(not entry[3] for entry in self.imports):
            raise LoweringError("there is no memory, which calls of the system need")
        for _, name, _, stays in self.imports:
            if not stays:
                index = library().index(name)
                assert index is not None
                stubs.append(w.sized(added.library_body(index)))
        if self._code_differs():
            kinds = [entry[2] for entry in self.imports if not entry[3]] + self.own + [kind for kind, _ in added.bodies]
            self.new[s.FUNCTION] = w.vector([w.unsigned(kind) for kind in kinds])
            self.new[s.CODE] = w.unsigned(len(kinds)) + b"".join(stubs) + bodies + b"".join(body for _, body in added.bodies)
        else:
            self.new.pop(s.CODE, None)
        self._extend(s.TYPE, added.new_types)
        self._extend(s.GLOBAL, added.new_globals)

    def _extend(self, number: int, entries: list[bytes]) -> None:
        """Puts entries after those of a section."""
        if not entries:
            return
        contents = self.new.get(number)
        if contents is None:
            section = next((one for one in self.sections if one.number == number), None)
            contents = b"\0" if section is None else self.data[section.begin:section.end]
        reader = Reader(contents)
        count = u32(reader)
        self.new[number] = w.unsigned(count + len(entries)) + contents[reader.at:] + b"".join(entries)

    def _name(self, section: s.Section) -> str:
        """The name of a custom section; an empty one if it has a fault."""
        try:
            return Reader(self.data, section.begin, section.end).name()
        except NotAModuleError:
            return ""

    def _written(self) -> tuple[bytes, tuple[str, ...]]:
        """The module, and which custom sections are not in it."""
        left_out, found, there = list[str](), bytearray(HEAD), {one.number for one in self.sections}
        missing = [number for number in s.ORDER if number not in there and self.new.get(number) is not None]
        for one in self.sections:
            while one.number and missing and s.RANK[missing[0]] < s.RANK[one.number]:
                found += self._section(missing.pop(0))
            if one.number == 0:
                kept = self._custom(one)
                if kept is None:
                    left_out.append(self._name(one))
                found += kept or b""
            elif one.number not in self.new:
                found += self.data[one.first:one.end]
            elif self.new[one.number] is not None:
                found += self._section(one.number)
        for number in missing:
            found += self._section(number)
        return bytes(found), tuple(left_out)

    def _section(self, number: int) -> bytes:
        return bytes([number]) + w.sized(self.new[number] or b"")

    def _custom(self, section: s.Section) -> bytes | None:
        """A custom section as it has to be; None if it is left out."""
        name = self._name(section).encode()
        if self.options.strip or name.startswith(BOUND) and self._code_differs():
            return None
        if name != b"name":
            return self.data[section.first:section.end]
        reader = Reader(self.data, section.begin, section.end)
        reader.name()
        contents = renamed(self.data[reader.at:section.end], self._moved, self.added.names)
        return None if contents is None else b"\0" + w.sized(w.sized(name) + contents)

    def _code_differs(self) -> bool:
        """Whether code has moved."""
        return any(body.is_changed for body in self.bodies) or bool(self.added.bodies) or not all(
            entry[3] for entry in self.imports)


class OwnEdits:
    """What takes the place of instructions of the module's own."""

    def __init__(self, lowering: Lowering) -> None:
        self._lowering = lowering
        self._moves = dict(enumerate(lowering.moves))
        self._has_count = any(one.number == s.DATA_COUNT for one in lowering.sections)

    def call(self, index: int) -> bytes | None:
        """A call of an import that has another index now."""
        found = self._moves.get(index, index)
        return w.call(found) if found != index else None

    def indirect(self, kind: int) -> bytes | None:
        return self._lowering.apart.indirect(kind)

    def operation(self, word: str) -> bytes:
        return w.call(self._lowering.added.helper(floats.helper_name(word)))

    def bulk(self, number: int, segment: int) -> bytes:
        if not self._lowering.has_memory and number != 9:
            raise Refusal("there is no memory")
        if number in (8, 9) and not self._has_count:
            raise Refusal("there is no section 12 (data count)")
        return self._lowering.added.bulk(number, segment)

    def note(self, what: str) -> None:
        self._lowering.added.replaced[what] += 1
