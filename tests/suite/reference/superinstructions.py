"""Random valid modules made of the sequences of instructions that the machine has superinstructions for.

They are whole, from their middle on or up to it, have the target of a branch inside, are in loops, and come where a task traps
or has no room for a value.
"""
from __future__ import annotations

import functools
import random
import re

from suite.places import TOP
from suite.reference.generate import leb
from suite.reference.programs import Outline, assembled, const, get, i32, locals_of, nested, set_
from suite.reference.wasm import I32, I64, MOST_VALUES, PAGE

TABLE = TOP / "crates/flat_code/src/superinstructions.rt"
OPERATORS = {"I32Add": 0x6A, "I32And": 0x71, "I32GtU": 0x4B, "I32LtU": 0x49, "I32Mul": 0x6C, "I32Ne": 0x47, "I32Shl": 0x74,
             "I32ShrU": 0x76, "I32Xor": 0x73}
LOADS = {"LoadI32": 0x28, "LoadI32From8U": 0x2D}
# How many operands an instruction takes.
TAKES = {**dict.fromkeys(OPERATORS, 2), **dict.fromkeys(LOADS, 1), "I32Eqz": 1, "LocalSet": 1, "LocalTee": 1, "ShortJumpIf": 1,
         "LocalGet": 0, "Const32": 0, "Const64": 0, "Pass": 0}
# The types of what it gives.
GIVES = {name: (I32,) for name in TAKES} | {"LocalSet": (), "ShortJumpIf": (), "Pass": (), "Const64": (I64,)}
# Locals that hold small addresses, and others.
ADDRESSES, OTHERS = range(1, 4), range(4, 9)
SMALL = 4096


@functools.cache
def rows() -> tuple[tuple[str, ...], ...]:
    """The instructions of each superinstruction, as the table of the sources names them."""
    found = re.findall(r"^ *\d+: \w+ =\s*(\w+)((?: \[[\w ]+\])+);", TABLE.read_text(), re.MULTILINE)
    return tuple((first, *re.findall(r"\w+", others)) for first, others in found)


def is_tame() -> bool:
    return random.random() < 0.97


def some_number() -> int:
    return random.choice([0, 1, 2, 4, 31, random.randrange(SMALL), -1, random.randrange(-2**31, 2**31)])


class Body:
    """Writes a function's body: what was pushed and not taken, the newest last, and how many blocks are open inside the one
    to which branches go."""

    def __init__(self) -> None:
        self.left: list[int] = []
        self.inside = 0

    def instruction(self, name: str, needs_address: bool) -> bytes:
        """One instruction of a row. An address that it makes is mostly inside memory."""
        is_small = needs_address and is_tame()
        if name in OPERATORS:
            return bytes([OPERATORS[name]])
        if name in LOADS:
            return bytes([LOADS[name], 0]) + leb(random.choice([0, 0, 4, 300]) if is_tame() else PAGE - random.randint(0, 4))
        if name == "LocalGet":
            return get(random.choice(ADDRESSES if is_small else [*ADDRESSES, *OTHERS]))
        if name in ("LocalSet", "LocalTee"):
            return (b"\x21" if name == "LocalSet" else b"\x22") + leb(random.choice(OTHERS))
        if name == "Const32":
            return i32(random.randrange(4) if is_small else some_number())
        if name == "Const64":
            return const(I64, random.choice([0, 1, -1, 2**31, 2**32 - 1, 2**32, random.randrange(2**63)]))
        if name == "ShortJumpIf":
            return b"\x0d" + leb(self.inside)
        return b"\x45" if name == "I32Eqz" else random.choice([b"\x01", b"\x01", b"\x02\x40\x0b", b"\x03\x40\x0b"])

    def sequence(self, names: tuple[str, ...]) -> bytes:
        """These instructions, with constants in front for what they take."""
        height, lacks = 0, 0
        for name in names:
            height -= TAKES[name]
            lacks, height = lacks + max(0, -height), max(0, height) + len(GIVES[name])
        loads = [index for index, name in enumerate(names) if name in LOADS]
        code = b"".join(i32(random.randrange(SMALL) if loads and is_tame() else some_number()) for _ in range(lacks))
        self.left += [I32] * lacks
        for index, name in enumerate(names):
            code += self.instruction(name, any(index < load for load in loads))
            del self.left[len(self.left) - TAKES[name]:]
            self.left += GIVES[name]
        return code

    def row(self) -> bytes:
        """A row: whole, or without its front or its end."""
        names, chance = random.choice(rows()), random.random()
        at = random.randrange(len(names))
        return self.sequence(names[at:] if chance < 0.15 else names[:at] if chance < 0.3 else names)

    def parted(self, outline: Outline) -> bytes:
        """A row whose middle is the target of a branch, which may be taken."""
        names = random.choice([row for row in rows() if len(row) > 1])
        at = random.randrange(1, len(names))
        before, self.left = self.left, []
        self.inside += 1
        code = self.sequence(names[:at])
        kinds = tuple(self.left)
        early = b"".join(const(kind, some_number()) for kind in kinds) + get(random.choice(OTHERS)) + b"\x0d\0"
        early += b"\x1a" * len(kinds)
        self.inside -= 1
        head = leb(outline.index_of((), kinds), is_signed=True)
        self.left = [*before, *kinds]
        return nested(0x02, head, early + code) + self.sequence(names[at:])

    def pieces(self, outline: Outline, count: int) -> bytes:
        """Rows one after the other. What they leave stays, or is dropped now and then."""
        code = b""
        for _ in range(count):
            code += self.parted(outline) if random.random() < 0.25 else self.row()
            if random.random() < 0.5:
                code += self.dropped()
            if random.random() < 0.2:
                code += i32(random.randrange(SMALL)) + set_(random.choice(ADDRESSES))
        return code

    def dropped(self) -> bytes:
        """Takes away what was left: drops it, or keeps it in a local or in memory."""
        code = b""
        while self.left:
            kept = self.left.pop() == I32 and random.random() < 0.5
            code += set_(random.choice(OTHERS)) if kept else b"\x1a"
        return code

    def block(self, outline: Outline, count: int) -> bytes:
        """Rows in a block, out of which their branches go; nothing is left."""
        before, self.left, inside, self.inside = self.left, [], self.inside, 0
        code = self.pieces(outline, count) + self.dropped()
        self.left, self.inside = before, inside
        return nested(0x02, b"\x40", code)

    def loop(self, outline: Outline, counter: int, count: int) -> bytes:
        """A loop that counts up, as the longest row does, with blocks of rows in it."""
        times = random.choice([1, 2, 3, 7, 20])
        code = b"".join(self.block(outline, random.randint(1, 4)) for _ in range(count))
        again = get(counter) + i32(1) + b"\x6a\x22" + leb(counter) + i32(times) + b"\x47\x0d\0"
        return i32(0) + set_(counter) + nested(0x03, b"\x40", code + again)


def stores() -> bytes:
    """Writes to memory what loads find there."""
    return b"".join(i32(random.randrange(SMALL)) + i32(some_number()) + b"\x36\0" + leb(random.choice([0, 300]))
                    for _ in range(random.randint(0, 5)))


def first_values() -> bytes:
    addresses = b"".join(i32(random.randrange(SMALL)) + set_(index) for index in ADDRESSES)
    return addresses + b"".join(i32(some_number()) + set_(index) for index in OTHERS if random.random() < 0.8)


def some_count(below: int, left: int) -> int:
    """How many locals a function has that calls itself with that many operands left: mostly so many that its last frame has
    room for a few operands only, where that many values are below the first."""
    tight = [own for own in range(200, 1000) if (MOST_VALUES - below) % (own + left) in range(own, own + 6)]
    return random.choice(tight) if tight and random.random() < 0.7 else random.choice([65, 400, 900])


def program() -> bytes:
    """A valid module on which a task is created. Its second function calls itself until its parameter is 0, or there is no
    room for a frame or a value, with what some rows leave still on the stack."""
    outline = Outline()
    outline.types[2:], outline.functions, outline.has_start = [((I32,), ())], [0, 1, 2], False
    outline.pages, outline.entries, outline.elements = 1, None, []
    entry, again = Body(), Body()
    counters = range(OTHERS.stop, OTHERS.stop + 3)
    code = stores() + first_values()
    for counter in counters:
        code += entry.loop(outline, counter, random.randint(1, 2)) if random.random() < 0.5 else entry.block(outline, 4)
    calls = random.choice([0, 1, 3, 5000])
    code += i32(calls) + b"\x10\x02" + entry.block(outline, 3) + get(random.choice(OTHERS)) + b"\x10\0"
    # Inside the block: a branch leaves it, so the call comes after it, with the operands that a row pushed there.
    inner = first_values() + again.block(outline, 1)
    again.left, again.inside = [], 0
    straight = [row for row in rows() if "ShortJumpIf" not in row]
    pushed = b"".join(again.sequence(random.choice(straight)) for _ in range(random.randint(0, 3)))
    inner += pushed + get(0) + i32(1) + b"\x6b\x10\x02" + b"\x1a" * len(again.left)
    own = OTHERS.stop if calls < 5000 else some_count(counters.stop, len(again.left))
    codes = [(counters.stop, code), (own, get(0) + nested(0x04, b"\x40", inner))]
    return assembled(outline, [locals_of([I32] * (count - (number == 2))) + body + b"\x0b"
                               for number, (count, body) in enumerate(codes, 1)])
