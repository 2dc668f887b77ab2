"""A few instructions as words, as in a text of a module, but for ids."""
from __future__ import annotations

from feulgama.wasm import opcodes as op
from feulgama.wasm import writer as w

BARE = {word: code for code, word in op.BARE.items()}
INDEXED = {word: code for code, word in op.INDEXED.items()}
ACCESSES = {word: code for code, (word, _) in op.ACCESSES.items()}
BLOCKS = {"block": b"\x02\x40", "loop": b"\x03\x40", "if": b"\x04\x40", "if_i64": b"\x04\x7e", "else": b"\x05",
          "end": b"\x0b", "memory.size": b"\x3f\0"}


def code(text: str) -> bytes:
    """The bytes of instructions. An access is at any alignment and without an offset; `if_i64` gives an i64."""
    found, words = b"", iter(text.split())
    for word in words:
        if word in BLOCKS:
            found += BLOCKS[word]
        elif word in BARE:
            found += bytes([BARE[word]])
        elif word in INDEXED:
            found += bytes([INDEXED[word]]) + w.unsigned(int(next(words)))
        elif word in ACCESSES:
            found += bytes([ACCESSES[word], 0, 0])
        else:
            constant = {"i32.const": op.I32_CONST, "i64.const": op.I64_CONST}[word]
            found += bytes([constant]) + w.signed(int(next(words)))
    return found


def body(text: str) -> bytes:
    """The contents of a body without locals."""
    return b"\0" + code(text) + bytes([op.END])
