"""Operators on integers (4.3.2), over numbers from 0 to 2^N - 1, where N is 32 or 64."""
from __future__ import annotations

from collections.abc import Callable
from functools import partial


class Trap(Exception):
    """The task ends with the trap of this name."""

    def __init__(self, name: str) -> None:
        super().__init__(name)
        self.name = name


def signed(bits: int, number: int) -> int:
    return number - (1 << bits) if number >= 1 << (bits - 1) else number


def quotient(a: int, b: int) -> int:
    """Towards zero."""
    if b == 0:
        raise Trap("integer divide by zero")
    return abs(a) // abs(b) * (1 if (a < 0) == (b < 0) else -1)


def div_s(bits: int, a: int, b: int) -> int:
    found = quotient(signed(bits, a), signed(bits, b))
    if found == 2**(bits - 1):
        raise Trap("integer overflow")
    return found


def rem_s(bits: int, a: int, b: int) -> int:
    a, b = signed(bits, a), signed(bits, b)
    return a - b * quotient(a, b)


def rotl(bits: int, a: int, b: int) -> int:
    count = b % bits
    return a << count | a >> (bits - count)


def trailing_zeros(bits: int, a: int) -> int:
    return next((count for count in range(bits) if a >> count & 1), bits)


# In the order of their opcodes, from eqz and from clz on.
TESTS = [
    lambda bits, a: a == 0,
    lambda bits, a, b: a == b,
    lambda bits, a, b: a != b,
    lambda bits, a, b: signed(bits, a) < signed(bits, b),
    lambda bits, a, b: a < b,
    lambda bits, a, b: signed(bits, a) > signed(bits, b),
    lambda bits, a, b: a > b,
    lambda bits, a, b: signed(bits, a) <= signed(bits, b),
    lambda bits, a, b: a <= b,
    lambda bits, a, b: signed(bits, a) >= signed(bits, b),
    lambda bits, a, b: a >= b,
]
NUMBERS = [
    lambda bits, a: bits - len(f"{a:b}".lstrip("0")),
    trailing_zeros,
    lambda bits, a: f"{a:b}".count("1"),
    lambda bits, a, b: a + b,
    lambda bits, a, b: a - b,
    lambda bits, a, b: a * b,
    div_s,
    lambda bits, a, b: quotient(a, b),
    rem_s,
    lambda bits, a, b: a - b * quotient(a, b),
    lambda bits, a, b: a & b,
    lambda bits, a, b: a | b,
    lambda bits, a, b: a ^ b,
    lambda bits, a, b: a << b % bits,
    lambda bits, a, b: signed(bits, a) >> b % bits,
    lambda bits, a, b: a >> b % bits,
    rotl,
    lambda bits, a, b: rotl(bits, a, -b),
]


# By their opcodes: how many low bits are read as signed, and the width (Core 2.0, 4.3.2).
SIGN_EXTENSIONS = [(0xC0, 8, 32), (0xC1, 16, 32), (0xC2, 8, 64), (0xC3, 16, 64), (0xC4, 32, 64)]


def extended(low: int, bits: int, a: int) -> int:
    return signed(low, a % (1 << low)) % (1 << bits)


def within(bits: int, operator: Callable[..., int], *operands: int) -> int:
    return operator(bits, *operands) % (1 << bits)


def operators() -> dict[int, Callable[..., int]]:
    """By opcode, functions of the operands."""
    found = {0xA7: lambda a: a % 2**32, 0xAC: lambda a: signed(32, a) % 2**64, 0xAD: lambda a: a}
    found |= {code: partial(extended, low, bits) for code, low, bits in SIGN_EXTENSIONS}
    for bits, test, number in ((32, 0x45, 0x67), (64, 0x50, 0x79)):
        found |= {test + k: partial(within, bits, operator) for k, operator in enumerate(TESTS)}
        found |= {number + k: partial(within, bits, operator) for k, operator in enumerate(NUMBERS)}
    return found
