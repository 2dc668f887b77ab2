"""The turns of each operation on floats. In clients/python:

    /usr/bin/python3 -m bench.floats

A module does an operation on 300 random operands, by a call of the function that `feulgama lower` links, and the turns of the
second reading of the standards are counted, without those of the operands. An operand has a random sign (a root has none), a
significand of 53 or 24 random bits, and an exponent from -20 to 20, so that numbers are less than a million times apart from 1
on either side.
"""
from __future__ import annotations

import random

from feulgama.lowering import floats, lower
from tests import float_modules as f
from tests.support import machine_of
from tests.written_modules import Written

COUNT = 300
DROP = b"\x1a"


def operand(kind: str, has_sign: bool) -> int:
    """The bits of a random operand; of an integer type a whole number."""
    if kind in ("i32", "i64"):
        return random.getrandbits(random.randrange(1, 8 * f.SIZES[kind]))
    number = random.uniform(1, 2) * 2.0 ** random.randint(-20, 20)
    return f.bits_of(kind, -number if has_sign and random.random() < 0.5 else number)


def turns(word: str) -> float:
    """The mean of an operation."""
    random.seed(1)
    name, kind = word.partition(".")[2], f.operand_of(word)
    count = 2 if name in f.BINARY or name in f.RELATIONS else 1
    main = b""
    for _ in range(COUNT):
        given = [operand(kind, name != "sqrt" and not name.endswith("_u")) for _ in range(count)]
        main += b"".join(f.constant(kind, bits) for bits in given) + f.operator(word) + DROP
    machine = machine_of(lower(Written(main).bytes()).data)
    machine.run(10**9)
    found: int = machine.turns
    return (found - COUNT * (count + 1)) / COUNT


def main() -> None:
    """Prints a line for each operation."""
    for word in (*floats.OPERATIONS.values(), *floats.SATURATIONS.values()):
        print(f"{word:24} {turns(word):.0f}")


if __name__ == "__main__":
    main()
