"""Modules that the benches make, in the binary format."""
from shared import leb, sized

HEADER = b"\0asm\1\0\0\0"
TYPES = b"\x01\x04\x01\x60\0\0"  # () -> ()
FUNCS = b"\x03\x02\x01\0"
MEMORY = b"\x05\x03\x01\0\x01"  # one page
EXPORTS = b"\x07\x0a\x01\x06_start\0\0"
# i32.add, i32.sub, i32.mul, i32.and, i32.or, i32.xor, i32.shl, i32.shr_u, i32.rotl
OPERATORS = (0x6A, 0x6B, 0x6C, 0x71, 0x72, 0x73, 0x74, 0x76, 0x77)


def dropping(constants: int, sections: bytes) -> bytes:
    """A module whose entry drops that number of constants: two instructions in three bytes."""
    body = b"\0" + b"\x41\0\x1a" * constants + b"\x0b"
    return HEADER + TYPES + FUNCS + sections + EXPORTS + b"\x0a" + sized(b"\x01" + sized(body))


def numeric(size: int) -> bytes:
    """A module whose entry has that many bytes of straight-line numeric code: four instructions in ten bytes or fewer."""
    number, parts = 1, list[bytes]()
    while size > 0:
        number = (number * 69069 + 1) % (1 << 25)
        # local.get 0, i32.const, an operator, local.set 0
        part = b"\x20\0\x41" + leb(number) + bytes([OPERATORS[number % len(OPERATORS)]]) + b"\x21\0"
        parts.append(part)
        size -= len(part)
    body = b"\x01\x01\x7f" + b"".join(parts) + b"\x0b"
    return HEADER + TYPES + FUNCS + EXPORTS + b"\x0a" + sized(b"\x01" + sized(body))
