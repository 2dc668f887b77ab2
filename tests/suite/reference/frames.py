"""Random valid modules whose tasks are mostly several calls and several blocks deep, with operands of both types in
each frame: blocks in blocks that take values and give values, and calls inside them."""
from __future__ import annotations

import random

from suite.reference.generate import leb
from suite.reference.programs import (ENTRY, Outline, Writer, assembled, fuelled, i32, locals_of, nested, set_,
                                      some_const, some_kinds)
from suite.reference.wasm import I32


class Nest(Writer):
    """Writes one function's body."""

    def __init__(self, outline: Outline, number: int) -> None:
        super().__init__(outline, number, 0)
        self.own = [*some_kinds(0, 5)]

    def body(self) -> bytes:
        code = b"".join(some_const(kind) + set_(len(self.params) + index) for index, kind in enumerate(self.own))
        return code + self.through(self.results, 0, random.randint(0, 4)) + self.leaves(self.results)

    def leaves(self, kinds: tuple[int, ...]) -> bytes:
        """Values of these types, each by one instruction."""
        return self.values(kinds, [], 0)

    def through(self, results: tuple[int, ...], given: int, depth: int) -> bytes:
        """The inside of a block or a body up to its results, which has been given that many operands: more of them, and
        blocks and calls on top; at the end there are none, or a branch takes the results along and drops the others."""
        below = some_kinds(0, 3)
        code, left = self.leaves(below), given + len(below)
        for _ in range(random.choice([1, 1, 1, 2])):
            added, count = self.deeper(depth)
            code, left = code + added + self.set([], 0), left + count
        if random.random() < 0.2:
            return code + self.leaves(results) + b"\x0c\0"
        return code + b"\x1a" * left

    def deeper(self, depth: int) -> tuple[bytes, int]:
        """A block or a call, and how many operands it gives."""
        if depth <= 0:
            return self.some_call()
        params, results = some_kinds(0, 3), some_kinds(0, 3)
        write = random.choice([self.in_block, self.in_loop, self.in_arm])
        return write(params, results, depth - 1), len(results)

    def in_block(self, params: tuple[int, ...], results: tuple[int, ...], depth: int) -> bytes:
        inside = self.through(results, len(params), depth) + self.leaves(results)
        return self.leaves(params) + nested(0x02, self.head(params, results), inside)

    def in_loop(self, params: tuple[int, ...], results: tuple[int, ...], depth: int) -> bytes:
        """A loop that goes round once or twice, each time with its parameters."""
        counter = self.counter()
        again = self.leaves(params) + self.counted(counter) + b"\x0d\0" + b"\x1a" * len(params)
        inside = nested(0x02, self.head(params, ()), self.through((), len(params), depth)) + again
        inside += self.leaves(results)
        times = i32(random.randint(1, 2)) + set_(counter)
        return times + self.leaves(params) + nested(0x03, self.head(params, results), inside)

    def in_arm(self, params: tuple[int, ...], results: tuple[int, ...], depth: int) -> bytes:
        arms = [self.through(results, len(params), depth) + self.leaves(results),
                b"\x1a" * len(params) + self.leaves(results)]
        random.shuffle(arms)
        return self.leaves((*params, I32)) + nested(0x04, self.head(params, results), b"\x05".join(arms))

    def some_call(self) -> tuple[bytes, int]:
        """A call of one of the next functions, or of any while there is fuel; and how many operands it gives."""
        later = list(range(self.number + 1, len(self.outline.functions)))
        takes_fuel = not later or random.random() < 0.2
        function = random.randrange(ENTRY, len(self.outline.functions)) if takes_fuel else random.choice(later[:2])
        params, results = self.outline.type_of(function)
        code = self.leaves(params) + self.call_of(function)
        if takes_fuel:
            code = fuelled(code, self.leaves(results), self.head((), results))
        return code, len(results)

    def call_of(self, function: int) -> bytes:
        """A call by the function's index, or through the table if it is there."""
        entries = [entry for entry, other in self.outline.table().items() if other == function]
        if not entries or random.random() < 0.3:
            return b"\x10" + leb(function)
        return i32(random.choice(entries)) + b"\x11" + leb(self.outline.functions[function]) + b"\0"


def program() -> bytes:
    """A valid module on which a task is created."""
    outline, codes = Outline(), []
    for number in range(ENTRY, len(outline.functions)):
        nest = Nest(outline, number)
        code = nest.body()
        codes.append(locals_of([*nest.own, *nest.counters]) + code + b"\x0b")
    return assembled(outline, codes)
