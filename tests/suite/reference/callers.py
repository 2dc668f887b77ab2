"""Random valid modules that make system calls, many of them at the edges of memory and of the output streams."""
from __future__ import annotations

import random

from suite.reference.generate import leb, sized, vector
from suite.reference.programs import func_type, get, i32, set_
from suite.reference.system_calls import CALLS, I32, MODULE
from suite.reference.wasm import PAGE

WRITTEN, BUFFERS = 16, 64  # where fd_write tells how much it took, and where its buffers are told
SIZES = (0, 1, 5, 100, 4_000, 30_000, PAGE - 200, PAGE, 2**32 - 1)


def place(pages: int) -> int:
    """An address: anywhere in memory, at its end, or beyond it."""
    end = pages * PAGE
    return random.choice([0, 8, 60, 200, random.randrange(max(end, 1)), end - 8, end - 5, end - 4, end - 3, end, end + 1,
                          2**31, 2**32 - 1, 2**32 - 4]) % 2**32


def word(number: int) -> bytes:
    return i32(number - 2**32 if number >= 2**31 else number)


def arguments(name: bytes, pages: int) -> bytes:
    if name == b"fd_write":
        at, count = (BUFFERS, random.choice([0, 1, 1, 1, 2, 3])) if random.random() < 0.8 else (
            place(pages), random.choice([0, 1, 8192, 2**32 - 1]))
        given = [random.choice([1, 1, 1, 2, 2, 0, 3, 2**32 - 1]), at, count,
                 WRITTEN if random.random() < 0.7 else place(pages)]
    else:
        given = [place(pages) if random.random() < 0.6 else random.choice([0, 16, 200, 300]) for _ in CALLS[name][0]]
    return b"".join(map(word, given))


def buffers(pages: int) -> bytes:
    """Addresses and lengths, as a data segment has them."""
    numbers = [number for _ in range(3) for number in (random.choice([0, 100, 5_000, place(pages)]), random.choice(SIZES))]
    return b"".join(number.to_bytes(4, "little") for number in numbers)


def program() -> bytes:
    """A module whose entry makes calls, mixes their results with words of its memory, and exits with the sum."""
    pages, names = random.choice([1, 1, 1, 2, 0]), random.sample(list(CALLS), random.randint(1, len(CALLS)))
    types = sorted({CALLS[name][:2] for name in names} | {((), ()), ((I32,), ())})
    if b"proc_exit" not in names:
        names.append(b"proc_exit")
    body = b""
    for name in random.choices(names, k=random.randint(1, 14)):
        if name != b"proc_exit" or random.random() < 0.05:
            body += arguments(name, pages) + b"\x10" + leb(names.index(name))
            body += get(0) + i32(31) + b"\x6c\x6a" + set_(0) if CALLS[name][1] else b""
    for _ in range(random.randint(0, 20) if pages else 0):
        at = random.choice([WRITTEN, 0, 8, 200, 300, random.randrange(pages * PAGE - 4)])
        body += i32(at) + b"\x28\x00" + leb(0) + get(0) + i32(33) + b"\x6c\x6a" + set_(0)
    body += get(0) + b"\x10" + leb(names.index(b"proc_exit")) if random.random() < 0.9 else b""
    code = b"\x01\x01\x7f" + body + b"\x0b"
    entry = sized(b"_start") + b"\0" + leb(len(names))
    memory = sized(random.choice([b"memory"] * 20 + [b"mem", b""])) + b"\2\0"
    found = [
        (1, vector([func_type(*two) for two in types])),
        (2, vector([sized(MODULE) + sized(name) + b"\0" + leb(types.index(CALLS[name][:2])) for name in names])),
        (3, vector([leb(types.index(((), ())))])),
        (5, vector([b"\0" + leb(pages)]) if pages or random.random() < 0.5 else None),
        (7, None),
        (10, vector([sized(code)])),
        (11, vector([leb(0) + i32(BUFFERS) + b"\x0b" + sized(buffers(pages)),
                     leb(0) + i32(100) + b"\x0b" + sized(random.randbytes(90))]) if pages else None),
    ]
    has_memory = found[3][1] is not None
    found[4] = (7, vector([entry, memory] if has_memory else [entry]))
    return b"\0asm\1\0\0\0" + b"".join(bytes([number]) + sized(part) for number, part in found if part is not None)
