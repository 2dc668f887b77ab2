"""Random valid modules whose functions do something: blocks, loops, branches, calls, memory, traps, recursion."""
from __future__ import annotations

import random
from collections.abc import Callable
from typing import Any

from suite.reference.generate import leb, sized, vector
from suite.reference.wasm import FIXED, I32, I64, LOADS, MOST_LOCALS, MOST_VALUES, PAGE, STORES

EDGES = {
    I32: (0, 0, 1, 1, 2, -1, -1, 7, 31, 32, 33, 63, 64, 127, -128, 255, 2**15, 2**16 - 1, 2**31 - 1, -2**31),
    I64: (0, 0, 1, 1, 2, -1, -1, 31, 32, 63, 64, 65, 2**31, 2**32 - 1, 2**32, -2**31, 2**63 - 1, -2**63),
}
DIVISIONS = (0x6D, 0x6E, 0x6F, 0x70, 0x7F, 0x80, 0x81, 0x82)
EXIT, ENTRY, MAIN = 0, 1, 2  # functions: the system call, `_start`, and what it calls before it exits with the sum
FUEL, SUM = 0, 1  # globals: how many calls may still be made to earlier functions, and all values so far, mixed


def bits_of(kind: int) -> int:
    return 32 if kind == I32 else 64


def const(kind: int, number: int) -> bytes:
    return bytes([0x41 if kind == I32 else 0x42]) + leb(number, is_signed=True, most=5 if kind == I32 else 10)


def some_const(kind: int) -> bytes:
    most = 2**(bits_of(kind) - 1)
    return const(kind, random.choice(EDGES[kind]) if random.random() < 0.5 else random.randrange(-most, most))


def i32(number: int) -> bytes:
    return const(I32, number)


def get(index: int) -> bytes:
    return b"\x20" + leb(index)


def set_(index: int) -> bytes:
    return b"\x21" + leb(index)


def with_global(opcode: int, index: int) -> bytes:
    return bytes([opcode]) + leb(index)


def block(opcode: int, results: tuple[int, ...], inside: bytes) -> bytes:
    return nested(opcode, bytes(results) or b"\x40", inside)


def nested(opcode: int, kind: bytes, inside: bytes) -> bytes:
    """A block whose type has these bytes."""
    return bytes([opcode]) + kind + inside + b"\x0b"


def reduced(results: tuple[int, ...], kind: int) -> bytes:
    """After these values: leaves the first of them, as one of this type."""
    first = {(I32, I64): random.choice([b"\xac", b"\xad"]), (I64, I32): b"\xa7"}.get((results[0], kind), b"")
    return b"\x1a" * (len(results) - 1) + first


def jump_by_table(labels: list[int], most: int) -> bytes:
    """A jump to one of these labels, by a table of up to this many of them."""
    chosen = [leb(random.choice(labels)) for _ in range(random.randint(1, most + 1))]
    return b"\x0e" + vector(chosen[1:]) + chosen[0]


def mixed(code: bytes, kind: int) -> bytes:
    """Adds the value of this code to the sum."""
    widened = code + (random.choice([b"\xac", b"\xad"]) if kind == I32 else b"")
    added = with_global(0x23, SUM) + widened + random.choice([b"\x85", b"\x7c"])
    return added + const(I64, 7) + b"\x89" + with_global(0x24, SUM)


class Outline:
    """The parts of a module that its functions name."""

    def __init__(self) -> None:
        self.types = [((I32,), ()), ((), ())] + [some_type() for _ in range(random.randint(1, 4))]
        indices = [1, 1, *(random.randrange(1, len(self.types)) for _ in range(random.randint(1, 5)))]
        self.functions = [0, *indices]
        self.has_start = random.random() < 0.15
        if self.has_start:
            self.functions.append(1)
        self.globals = [(I32, 1), (I64, 1)] + [(random.choice((I32, I64)), random.randrange(2))
                                               for _ in range(random.randint(0, 3))]
        self.pages = random.choice([0, *[1] * 10, 2, 2, 3, 16]) if random.random() < 0.9 else None
        self.entries = random.choice([0, 1, 4, 4, 8]) if random.random() < 0.7 else None
        self.is_tame = random.random() < 0.75
        self.elements = [self.element() for _ in range(random.choice([0, 1, 2, 3]) if self.entries else 0)]

    def element(self) -> tuple[int, list[int]]:
        """An offset, and functions that have their entries from there on."""
        assert self.entries is not None
        at = random.randrange(self.entries)
        return at, [random.randrange(len(self.functions)) for _ in range(random.randint(0, self.entries - at))]

    def table(self) -> dict[int, int]:
        """The function of each entry of the table that has one."""
        found: dict[int, int] = {}
        for at, functions in self.elements:
            found |= enumerate(functions, at)
        return found

    def entries_of(self, params: tuple[int, ...], results: tuple[int, ...]) -> list[int]:
        """The entries of the table that have functions of this type."""
        return [index for index, function in self.table().items() if self.type_of(function) == (params, results)]

    def type_of(self, function: int) -> tuple[tuple[int, ...], tuple[int, ...]]:
        return self.types[self.functions[function]]

    def index_of(self, params: tuple[int, ...], results: tuple[int, ...]) -> int:
        """The index of this type, which is added if it is not there."""
        if (params, results) not in self.types:
            self.types.append((params, results))
        return self.types.index((params, results))


def some_type() -> tuple[tuple[int, ...], tuple[int, ...]]:
    params = tuple(random.choice((I32, I64)) for _ in range(random.choice([0, 1, 1, 2, 3])))
    return params, tuple(random.choice((I32, I64)) for _ in range(random.choice([0, 1, 1, 2, 3])))


def some_kinds(least: int, most: int) -> tuple[int, ...]:
    return tuple(random.choice((I32, I64)) for _ in range(random.randint(least, most)))


class Writer:
    """Writes one function's body. `labels`: what a branch to each open block takes, innermost first."""

    def __init__(self, outline: Outline, number: int, left: int) -> None:
        self.outline, self.number, self.left = outline, number, left
        self.params, self.results = outline.type_of(number)
        self.own = [random.choice((I32, I64)) for _ in range(random.randint(0, 4))]
        self.counters: list[int] = []

    def local(self, kind: int) -> int | None:
        known = [index for index, other in enumerate([*self.params, *self.own]) if other == kind]
        return random.choice(known) if known else None

    def counter(self) -> int:
        """A local of its own, which nothing else writes; its place is filled in once all are known."""
        return self.fresh(I32)

    def fresh(self, kind: int) -> int:
        self.counters.append(kind)
        return len(self.params) + len(self.own) + len(self.counters) - 1

    def head(self, params: tuple[int, ...], results: tuple[int, ...]) -> bytes:
        """The bytes of a block's type: at times an index where a value type would do."""
        if not params and len(results) < 2 and random.random() < 0.9:
            return bytes(results) or b"\x40"
        return leb(self.outline.index_of(params, results), is_signed=True)

    def body(self) -> bytes:
        labels = [self.results]
        code = b"".join(some_const(kind) + set_(len(self.params) + index)
                        for index, kind in enumerate(self.own) if random.random() < 0.7)
        code += self.statements(labels, random.randint(6, 20) if self.number == MAIN else random.randint(1, 6))
        return code + self.values(self.results, labels, 3)

    def statements(self, labels: list[tuple[int, ...]], count: int) -> bytes:
        return b"".join(self.statement(labels, 3) for _ in range(count))

    def values(self, kinds: Any, labels: list[tuple[int, ...]], depth: int) -> bytes:
        return b"".join(self.value(kind, labels, depth) for kind in kinds)

    def value(self, kind: int, labels: list[tuple[int, ...]], depth: int) -> bytes:
        """Code that leaves one value of this type."""
        self.left -= 1
        if depth <= 0 or self.left <= 0:
            return random.choice([self.leaf, self.leaf, self.size])(kind)
        choices: list[Callable[..., bytes]] = [
            self.leaf, self.operator, self.operator, self.operator, self.load, self.load, self.grown,
            self.select, self.block, self.if_, self.loop, self.carried, self.tabled, self.call, self.tee,
            self.indirect, self.taking, self.going_round, self.several, self.called_for_several]
        chosen = random.choice(choices)
        return chosen(kind) if chosen == self.leaf else chosen(kind, labels, depth - 1)

    def leaf(self, kind: int) -> bytes:
        place, chance = self.local(kind), random.random()
        if place is not None and chance < 0.5:
            return get(place)
        known = [index for index, (other, _) in enumerate(self.outline.globals) if other == kind]
        if known and chance < 0.65:
            return with_global(0x23, random.choice(known))
        return some_const(kind)

    def size(self, kind: int) -> bytes:
        return b"\x3f\0" if kind == I32 and self.outline.pages is not None else self.leaf(kind)

    def operator(self, kind: int, labels: list[tuple[int, ...]], depth: int) -> bytes:
        opcode = random.choice([code for code, (_, gives) in FIXED.items() if gives == (kind,)])
        takes, _ = FIXED[opcode]
        if opcode in DIVISIONS:
            return self.division(opcode, kind, labels, depth)
        if random.random() < 0.15:
            return b"".join(map(some_const, takes)) + bytes([opcode])
        return self.values(takes, labels, depth) + bytes([opcode])

    def division(self, opcode: int, kind: int, labels: list[tuple[int, ...]], depth: int) -> bytes:
        """Mostly by no 0; at times the least number by -1, which traps in one of the four."""
        chance = random.random()
        traps = opcode in (0x6D, 0x7F) and self.outline.is_tame
        if chance < 0.15 and not traps:
            return const(kind, -2**(bits_of(kind) - 1)) + const(kind, -1) + bytes([opcode])
        code = self.values((kind, kind), labels, depth)
        if chance < (0.99 if self.outline.is_tame else 0.7):
            code += const(kind, random.choice([1, 5, 2**(bits_of(kind) - 2)])) + (b"\x72" if kind == I32 else b"\x84")
        return code + bytes([opcode])

    def address(self, count: int, labels: list[tuple[int, ...]], depth: int) -> tuple[bytes, int]:
        """Code that leaves an address, and an offset: mostly inside memory, at times at its end or over it."""
        assert self.outline.pages is not None
        end, chance = self.outline.pages * PAGE, random.random()
        if chance < (0.99 if self.outline.is_tame else 0.85):
            if chance < 0.15 and end:
                return i32(end - count - random.choice([0, 0, 1, 5])), 0
            if chance < 0.25 and end:
                back = random.randint(0, 20)
                return i32(back), end - count - back
            return self.value(I32, labels, depth) + i32(63) + b"\x71", random.choice([0, 0, 1, 3, 8, 300])
        if random.random() < 0.7:
            return i32(end - random.randint(0, count)), random.choice([0, 0, 1])
        return self.value(I32, labels, depth), random.choice([0, 1, 65_535, 2**32 - 1])

    def access(self, opcode: int, count: int, address: tuple[bytes, int], value: bytes = b'') -> bytes:
        code, offset = address
        return code + value + bytes([opcode]) + leb(random.randrange(count.bit_length())) + leb(offset)

    def load(self, kind: int, labels: list[tuple[int, ...]], depth: int) -> bytes:
        if self.outline.pages is None:
            return self.leaf(kind)
        opcode = random.choice([code for code, (other, _) in LOADS.items() if other == kind])
        count = LOADS[opcode][1]
        return self.access(opcode, count, self.address(count, labels, depth))

    def grown(self, kind: int, labels: list[tuple[int, ...]], depth: int) -> bytes:
        if kind != I32 or self.outline.pages is None or random.random() < 0.7:
            return self.operator(kind, labels, depth)
        return i32(random.choice([0, 1, 1, 2, 14, 15, 16, 17, -1, 65_535, 65_536])) + b"\x40\0"

    def select(self, kind: int, labels: list[tuple[int, ...]], depth: int) -> bytes:
        return self.values((kind, kind, I32), labels, depth) + b"\x1b"

    def tee(self, kind: int, labels: list[tuple[int, ...]], depth: int) -> bytes:
        place = self.local(kind)
        return self.value(kind, labels, depth) + (b"" if place is None else b"\x22" + leb(place))

    def block(self, kind: int, labels: list[tuple[int, ...]], depth: int) -> bytes:
        inside = [(kind,), *labels]
        code = self.statements(inside, random.randint(0, 2)) + self.value(kind, inside, depth)
        return block(0x02, (kind,), code + self.leaving(inside, kind))

    def leaving(self, labels: list[tuple[int, ...]], kind: int) -> bytes:
        """After a value of this type: mostly nothing, at times a jump that takes it along."""
        alike = [index for index, types in enumerate(labels) if types == (kind,)]
        chance = random.random()
        if not alike or chance < 0.6:
            return b""
        label = random.choice(alike)
        if chance < 0.75:
            return self.value(I32, labels, 1) + b"\x0d" + leb(label)
        jump = b"\x0c" + leb(label)
        if chance < 0.9:
            jump = self.value(I32, labels, 1) + jump_by_table(alike, 3)
        return jump + random.choice([b"", b"\x1a" + some_const(kind), b"\x1b", b"\x01", some_const(kind)])

    def if_(self, kind: int, labels: list[tuple[int, ...]], depth: int) -> bytes:
        inside = [(kind,), *labels]
        arms = [self.statements(inside, random.randint(0, 1)) + self.value(kind, inside, depth)
                + self.leaving(inside, kind) for _ in range(2)]
        return self.value(I32, labels, depth) + block(0x04, (kind,), b"\x05".join(arms))

    def loop(self, kind: int, labels: list[tuple[int, ...]], depth: int) -> bytes:
        """A loop that gives a value, and goes round while its counter is not zero."""
        counter, inside = self.counter(), [(), *labels]
        code = self.statements(inside, random.randint(0, 1)) + self.value(kind, inside, depth)
        times = i32(random.randint(1, 3)) + set_(counter)
        return times + block(0x03, (kind,), code + self.counted(counter) + b"\x0d\0")

    def counted(self, counter: int) -> bytes:
        """Takes one from the counter, and leaves it."""
        return get(counter) + i32(1) + b"\x6b\x22" + leb(counter)

    def taking(self, kind: int, labels: list[tuple[int, ...]], depth: int) -> bytes:
        """A block or an `if` that takes operands along."""
        params, opcode = some_kinds(1, 3), random.choice([0x02, 0x04])
        inside = [(kind,), *labels]
        code = self.values(params, labels, depth)
        arms = [self.kept(params) + self.statements(inside, random.randint(0, 1)) + self.value(kind, inside, depth)
                + self.leaving(inside, kind) for _ in range(2)]
        if opcode == 0x02:
            return code + nested(opcode, self.head(params, (kind,)), arms[0])
        without_else = params == (kind,) and random.random() < 0.5
        code += self.value(I32, labels, depth)
        return code + nested(opcode, self.head(params, (kind,)), arms[0] if without_else else b"\x05".join(arms))

    def kept(self, params: tuple[int, ...]) -> bytes:
        """Puts the operands that a block took along into locals of their own."""
        return b"".join(set_(self.fresh(param)) for param in reversed(params))

    def going_round(self, kind: int, labels: list[tuple[int, ...]], depth: int) -> bytes:
        """A loop that takes operands along, and again at each branch to it."""
        params, counter = some_kinds(1, 3), self.counter()
        inside, below = [params, *labels], some_kinds(0, 2)
        code = self.kept(params) + self.statements(inside, random.randint(0, 1)) + self.values(below, inside, 0)
        code += self.values(params, inside, 1) + self.counted(counter) + b"\x0d\0"
        code += b"\x1a" * (len(params) + len(below)) + self.value(kind, inside, depth)
        times = i32(random.randint(1, 3)) + set_(counter)
        return times + self.values(params, labels, depth) + nested(0x03, self.head(params, (kind,)), code)

    def several(self, kind: int, labels: list[tuple[int, ...]], depth: int) -> bytes:
        """A block that gives several values, and a branch out of it that takes them along."""
        results, below = some_kinds(2, 4), some_kinds(0, 2)
        inside = [results, *labels]
        code = self.values(below, inside, 0) + self.values((*results, I32), inside, depth) + b"\x0d\0"
        code += b"\x1a" * (len(results) + len(below)) + self.values(results, inside, 1)
        return nested(0x02, self.head((), results), code) + reduced(results, kind)

    def called_for_several(self, kind: int, labels: list[tuple[int, ...]], depth: int) -> bytes:
        """A call of a function with several results."""
        function, takes_fuel = self.called(lambda results: len(results) > 1)
        if function is None:
            return self.several(kind, labels, depth)
        results = self.outline.type_of(function)[1]
        other = b"".join(map(some_const, results))
        return self.direct(function, takes_fuel, other, labels, depth) + reduced(results, kind)

    def carried(self, kind: int, labels: list[tuple[int, ...]], depth: int) -> bytes:
        """A branch out of a block with operands below what it takes along."""
        inside = [(kind,), *labels]
        below = [random.choice((I32, I64)) for _ in range(random.randint(0, 3))]
        code = self.values(below, inside, 1) + self.values((kind, I32), inside, depth) + b"\x0d\0"
        return block(0x02, (kind,), code + b"\x1a" * (len(below) + 1) + self.value(kind, inside, depth))

    def tabled(self, kind: int, labels: list[tuple[int, ...]], depth: int) -> bytes:
        """Blocks inside each other, and a jump to one of them by a table; each adds something of its own."""
        count = random.randint(1, 4)
        inside = [(kind,)] * count + labels
        alike = [index for index, types in enumerate(inside)
                 if types == (kind,) and (index < count or random.random() < 0.2)]
        code = self.value(kind, inside, depth) + self.value(I32, inside, depth)
        if random.random() < 0.8:
            code += i32(7) + b"\x71"
        code += jump_by_table(alike, 6)
        for _ in range(count):
            code = block(0x02, (kind,), code) + some_const(kind) + (b"\x6a" if kind == I32 else b"\x7c")
        return code

    def called(self, gives: Callable[..., Any]) -> tuple[int | None, bool]:
        """A function whose results are so, and whether it takes fuel to call it; None where there is none."""
        known = [index for index in range(len(self.outline.functions)) if gives(self.outline.type_of(index)[1])]
        later = [index for index in known if index > self.number]
        if later and random.random() < 0.8:
            return random.choice(later), False
        others = [index for index in known if index != EXIT]
        return (random.choice(others), True) if others else (None, False)

    def call(self, kind: int, labels: list[tuple[int, ...]], depth: int) -> bytes:
        function, takes_fuel = self.called(lambda results: results == (kind,))
        if function is None:
            return self.operator(kind, labels, depth)
        return self.direct(function, takes_fuel, some_const(kind), labels, depth)

    def direct(self, function: int, takes_fuel: bool, other: bytes, labels: list[tuple[int, ...]], depth: int) -> bytes:
        params, results = self.outline.type_of(function)
        inside = [results, *labels] if takes_fuel else labels
        code = self.values(params, inside, depth) + b"\x10" + leb(function)
        return fuelled(code, other, self.head((), results)) if takes_fuel else code

    def indirect(self, kind: int, labels: list[tuple[int, ...]], depth: int) -> bytes:
        known = [index for index, (_, results) in enumerate(self.outline.types) if results == (kind,)]
        if not known or not self.outline.entries:
            return self.operator(kind, labels, depth)
        return self.through_table(random.choice(known), some_const(kind), labels, depth)

    def through_table(self, type_index: int, other: bytes, labels: list[tuple[int, ...]], depth: int) -> bytes:
        params, results = self.outline.types[type_index]
        alike = self.outline.entries_of(params, results)
        inside = [results, *labels]
        index = self.value(I32, inside, depth)
        if alike and random.random() < (0.98 if self.outline.is_tame else 0.8):
            index = i32(random.choice(alike))
        elif self.outline.is_tame and random.random() < 0.95:
            return other
        return fuelled(self.values(params, inside, depth) + index + b"\x11" + leb(type_index) + b"\0", other,
                       self.head((), results))

    def statement(self, labels: list[tuple[int, ...]], depth: int) -> bytes:
        """Code that leaves the operands as they were."""
        self.left -= 1
        if self.left <= 0:
            return b""
        choices = [self.set, self.set, self.set_global, self.mix, self.mix, self.mix, self.store, self.store,
                   self.store, self.inner, self.counting, self.choose, self.call_it, self.jump_if, self.jump_if,
                   self.leave_if, self.leave_if, self.nop, self.send]
        return random.choice(choices)(labels, depth)

    def set(self, labels: list[tuple[int, ...]], depth: int) -> bytes:
        kind = random.choice((I32, I64))
        place = self.local(kind)
        return self.mix(labels, depth) if place is None else self.value(kind, labels, depth) + set_(place)

    def set_global(self, labels: list[tuple[int, ...]], depth: int) -> bytes:
        known = [(index, kind) for index, (kind, is_var) in enumerate(self.outline.globals)
                 if is_var and index != FUEL]
        index, kind = random.choice(known)
        return self.value(kind, labels, depth) + with_global(0x24, index)

    def mix(self, labels: list[tuple[int, ...]], depth: int) -> bytes:
        kind = random.choice((I32, I64))
        code = self.operator(kind, labels, 0) if random.random() < 0.5 else self.value(kind, labels, depth)
        return mixed(code, kind)

    def store(self, labels: list[tuple[int, ...]], depth: int) -> bytes:
        if self.outline.pages is None:
            return self.set(labels, depth)
        opcode = random.choice(list(STORES))
        kind, count = STORES[opcode]
        return self.access(opcode, count, self.address(count, labels, 1), self.value(kind, labels, depth))

    def nop(self, _labels: list[tuple[int, ...]], _depth: int) -> bytes:
        return b"\x01"

    def inner(self, labels: list[tuple[int, ...]], _depth: int) -> bytes:
        return block(0x02, (), self.statements([(), *labels], random.randint(0, 3)))

    def counting(self, labels: list[tuple[int, ...]], depth: int) -> bytes:
        """A loop that ends: any branch to it counts down, or only the one at its end does."""
        counter, times = self.counter(), random.choice([1, 2, 3, 3, 5, 10])
        if random.random() < 0.8:
            inside = [(), (), *labels]
            test = get(counter) + b"\x45\x0d\x01" + self.counted(counter) + b"\x1a"
            code = test + self.statements(inside, random.randint(1, 3)) + b"\x0c\0"
            body = block(0x02, (), block(0x03, (), code))
        else:
            code = self.statements([(), *labels], random.randint(1, 3))
            body = block(0x03, (), code + self.counted(counter) + b"\x0d\0")
        return i32(times) + set_(counter) + body

    def choose(self, labels: list[tuple[int, ...]], depth: int) -> bytes:
        arms = [self.statements([(), *labels], random.randint(0, 2)) for _ in range(2)]
        code = b"\x05".join(arms if arms[1] or random.random() < 0.1 else arms[:1])
        return self.value(I32, labels, depth) + block(0x04, (), code)

    def call_it(self, labels: list[tuple[int, ...]], depth: int) -> bytes:
        if self.outline.entries and random.random() < 0.4:
            known = [index for index, (_, results) in enumerate(self.outline.types)
                     if not results and (index != EXIT or random.random() < 0.2)]
            return self.through_table(random.choice(known), b"", labels, depth)
        function, takes_fuel = self.called(lambda results: results == ())
        if function is None:
            return self.mix(labels, depth)
        return self.direct(function, takes_fuel, b"", labels, depth)

    def some_label(self, labels: list[tuple[int, ...]]) -> int:
        """Any open block, but seldom the function's own."""
        return random.randrange(len(labels) - (len(labels) > 1 and random.random() < 0.8))

    def jump_if(self, labels: list[tuple[int, ...]], depth: int) -> bytes:
        """A branch to any open block, the function's own among them, that may be taken."""
        if len(labels) == 1 and random.random() < 0.85:
            return self.mix(labels, depth)
        label = self.some_label(labels)
        return self.values((*labels[label], I32), labels, depth) + b"\x0d" + leb(label) + b"\x1a" * len(labels[label])

    def send(self, labels: list[tuple[int, ...]], depth: int) -> bytes:
        """A jump by a table without operands, to blocks that are open."""
        alike = [index + 1 for index, types in enumerate(labels) if not types] + [0, 0, 0]
        inside = [(), *labels]
        code = self.value(I32, inside, depth) + jump_by_table(alike, 4)
        return block(0x02, (), code + self.unreached(inside))

    def unreached(self, labels: list[tuple[int, ...]]) -> bytes:
        """After a jump, what is typed there."""
        bare = [b"", b"\x6a\x1a", b"\x1b\x1a", b"\xac\x50\x1a", b"\x0c\0"]
        return random.choice([b"", self.statement(labels, 1), *bare])

    def leave_if(self, labels: list[tuple[int, ...]], depth: int) -> bytes:
        """In an arm: a branch, a return, an exit or a trap, and what nobody reaches."""
        inside, chance = [(), *labels], random.random()
        if chance < 0.7:
            label = self.some_label(inside)
            way = self.values(inside[label], inside, depth) + b"\x0c" + leb(label)
        elif chance < 0.85:
            way = self.values(self.results, inside, depth) + b"\x0f"
        elif chance < 0.88:
            way = self.value(I32, inside, depth) + b"\x10" + leb(EXIT) + b"\0"
        else:
            way = b"\0" if chance < 0.92 else b"\x0c\0"
        code = self.statement(inside, 1) + way + self.unreached(inside)
        return self.value(I32, labels, depth) + block(0x04, (), code)


def fuelled(code: bytes, other: bytes, kind: bytes) -> bytes:
    """Code that runs while there is fuel, and code that takes its place afterwards."""
    burn = with_global(0x23, FUEL) + i32(1) + b"\x6b" + with_global(0x24, FUEL)
    return with_global(0x23, FUEL) + nested(0x04, kind, burn + code + b"\x05" + other)


def sum_of(outline: Outline) -> bytes:
    """Code that adds what memory and the globals have to the sum, and exits with it."""
    code = b"".join(mixed(with_global(0x23, index), kind) for index, (kind, _) in enumerate(outline.globals))
    if outline.pages:
        last = outline.pages * PAGE - 8
        for address in (*range(0, 72, 8), 300, 308, last - 8, last):
            code += mixed(i32(0) + b"\x29\0" + leb(address), I64)
    if outline.pages is not None:
        code += mixed(b"\x3f\0", I32)
    halves = with_global(0x23, SUM) + with_global(0x23, SUM) + const(I64, 32) + b"\x88\x85\xa7"
    return halves + b"\x10" + leb(EXIT)


def locals_of(kinds: list[int]) -> bytes:
    runs: list[list[int]] = []
    for kind in kinds:
        if runs and runs[-1][1] == kind and random.random() < 0.8:
            runs[-1][0] += 1
        else:
            runs.append([1, kind])
    return vector([leb(count) + bytes([kind]) for count, kind in runs])


def limits(least: int, mosts: list[int]) -> bytes:
    most = random.choice([None, None, least, *mosts])
    return b"\0" + leb(least) if most is None else b"\1" + leb(least) + leb(most)


def func_type(params: tuple[int, ...], results: tuple[int, ...]) -> bytes:
    return b"\x60" + b"".join(vector([bytes([kind]) for kind in kinds]) for kinds in (params, results))


def data_of(outline: Outline) -> list[bytes]:
    assert outline.pages is not None
    end = outline.pages * PAGE
    places = [(random.choice([0, 5, 60, end - 4]), 4) for _ in range(random.randint(0, 2))] if end else []
    return [leb(0) + i32(at) + b"\x0b" + sized(random.randbytes(count)) for at, count in [*places, (end, 0)]]


def globals_of(outline: Outline) -> list[bytes]:
    fuel = random.choice([0, 3, 10, 30])
    return [bytes([kind, is_var]) + (i32(fuel) if index == FUEL else some_const(kind)) + b"\x0b"
            for index, (kind, is_var) in enumerate(outline.globals)]


def assembled(outline: Outline, codes: list[bytes]) -> bytes:
    """The module of these functions."""
    entries, pages = outline.entries, outline.pages
    found = [
        (1, vector([func_type(*two) for two in outline.types])),
        (2, vector([sized(b"wasi_snapshot_preview1") + sized(b"proc_exit") + b"\0" + leb(0)])),
        (3, vector([leb(index) for index in outline.functions[1:]])),
        (4, None if entries is None else vector([b"\x70" + limits(entries, [2**32 - 1])])),
        (5, None if pages is None else vector([limits(pages, [pages + 1, 16, 65_536])])),
        (6, vector(globals_of(outline))),
        (7, vector([sized(b"_start") + b"\0" + leb(1)])),
        (8, leb(len(outline.functions) - 1) if outline.has_start else None),
        (9, vector([leb(0) + i32(at) + b"\x0b" + vector([leb(index) for index in functions])
                    for at, functions in outline.elements]) if entries is not None else None),
        (10, vector([sized(code) for code in codes])),
        (11, None if pages is None else vector(data_of(outline))),
    ]
    return b"\0asm\1\0\0\0" + b"".join(bytes([number]) + sized(part) for number, part in found if part is not None)


def program() -> bytes:
    """A valid module on which a task is created."""
    outline, codes = Outline(), []
    for number in range(1, len(outline.functions)):
        most = {ENTRY: [0, 0, 0, 0, 3], MAIN: [60, 150, 400]}.get(number, [5, 20, 60, 150])
        writer = Writer(outline, number, random.choice(most))
        code = writer.body()
        if number == ENTRY:
            code += b"\x10" + leb(MAIN) + (sum_of(outline) if random.random() < 0.9 else b"")
        codes.append(locals_of([*writer.own, *writer.counters]) + code + b"\x0b")
    return assembled(outline, codes)


def deep() -> bytes:
    """A function that calls itself until about as many frames or values are there as a task may have."""
    locals_, pushed = random.randint(0, random.choice([60, MOST_LOCALS - 1])), random.randint(0, 3)
    each = 1 + locals_ + pushed
    calls = min(random.randint(1019, 1023), MOST_VALUES // each) - random.choice([0, 0, 1, 2])
    spare = MOST_VALUES - calls * each - 1 - locals_ + random.choice([-1, 0, 1])
    outline = Outline()
    outline.types[2:], outline.functions, outline.has_start = [((I32,), ())], [0, 1, 2, 1], False
    outline.elements = []
    more = spare if 0 <= spare <= 400 and random.random() < 0.7 else random.randint(0, 2)
    inner = min(MOST_LOCALS, max(0, spare - more)) if random.random() < 0.5 else random.randint(0, 1)
    bottom = some_const(I64) * more + (b"\x10\x03" if random.random() < 0.5 else b"") + b"\x1a" * more
    again = some_const(I64) * pushed + get(0) + i32(1) + b"\x6b\x10\x02" + b"\x1a" * pushed
    codes = [
        i32(calls) + b"\x10\x02" + some_const(I32) + b"\x10\0",
        get(0) + b"\x45\x04\x40" + bottom + b"\x05" + again + b"\x0b",
        b"",
    ]
    counts = (0, locals_, inner)
    return assembled(outline, [locals_of([I64] * count) + code + b"\x0b" for count, code in zip(counts, codes)])
