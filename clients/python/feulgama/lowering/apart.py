"""Function types that differ by floats alone: they are one type by integers, and a call through the table has to trap still
if the function has the other one."""
from __future__ import annotations

from collections import Counter
from collections.abc import Iterable
from dataclasses import dataclass, field

from feulgama.lowering.additions import Additions
from feulgama.lowering.errors import Refusal
from feulgama.lowering.floats import without_floats
from feulgama.wasm import opcodes as op
from feulgama.wasm import writer as w

Kind = tuple[bytes, bytes]
MOST_EXTRA = 100


def encoded(params: bytes, results: bytes) -> bytes:
    """A function type in its bytes."""
    return b"\x60" + w.sized(params) + w.sized(results)


def gets(count: int) -> bytes:
    """All parameters as operands."""
    return b"".join(map(w.get, range(count)))


@dataclass(slots=True)
class Apart:
    """The types of the module, each by its parameters and its results, as they were. Of those that become one, that of most
    functions in the table keeps the type. A function of another one is in the table as one that has more results, which are
    nothing, by a type that no other function has; and it is called by a function that takes these results away."""
    kinds: list[Kind]
    added: Additions
    _kept: dict[Kind, Kind] = field(default_factory=dict)
    _extra: dict[Kind, int] = field(default_factory=dict)
    _entries: dict[int, int] = field(default_factory=dict)
    _calls: dict[Kind, int] = field(default_factory=dict)

    def choose(self, in_table: Iterable[int]) -> None:
        """Chooses the types that are kept, by the types of the functions in the table."""
        counts = Counter(self.kinds[kind] for kind in in_table)
        for kind in sorted(counts, key=lambda one: (-counts[one], one)):
            self._kept.setdefault(self._lowered(kind), kind)

    def entry(self, function: int, kind: int) -> int:
        """The function that is in the table for a function of a type."""
        if self._is_kept(self.kinds[kind]):
            return function
        if function not in self._entries:
            params, results = self._lowered(self.kinds[kind])
            extra = self._extra_of(self.kinds[kind])
            data = b"\0" + gets(len(params)) + w.call(function) + w.i32(0) * extra + bytes([op.END])
            whole = encoded(params, results + bytes([op.I32]) * extra)
            self._entries[function] = self.added.function(f"entry_{function}", whole, data)
        return self._entries[function]

    def indirect(self, kind: int) -> bytes | None:
        """The instruction in place of a call through the table of functions of a type; None if it stays."""
        if kind >= len(self.kinds) or self._is_kept(self.kinds[kind]):
            return None
        original = self.kinds[kind]
        if original not in self._calls:
            params, results = self._lowered(original)
            extra = self._extra_of(original)
            whole = self.added.type_index(encoded(params, results + bytes([op.I32]) * extra))
            data = (b"\0" + gets(len(params) + 1) + bytes([op.CALL_INDIRECT]) + w.unsigned(whole) + b"\0" + w.DROP * extra
                    + bytes([op.END]))
            taken = encoded(params + bytes([op.I32]), results)
            self._calls[original] = self.added.function(f"call_indirect_{kind}", taken, data)
        return w.call(self._calls[original])

    @staticmethod
    def _lowered(kind: Kind) -> Kind:
        return without_floats(kind[0]), without_floats(kind[1])

    def _is_kept(self, kind: Kind) -> bool:
        """Whether no function in the table has another type that becomes the same."""
        return self._kept.get(self._lowered(kind), kind) == kind

    def _extra_of(self, kind: Kind) -> int:
        """How many results make a type that is in no other use."""
        if kind not in self._extra:
            params, results = self._lowered(kind)
            extra = 1
            while encoded(params, results + bytes([op.I32]) * extra) in self.added.known_types():
                extra += 1
            if extra > MOST_EXTRA:
                raise Refusal(f"more than {MOST_EXTRA} function types differ by floats alone")
            self.added.type_index(encoded(params, results + bytes([op.I32]) * extra))
            self._extra[kind] = extra
        return self._extra[kind]
