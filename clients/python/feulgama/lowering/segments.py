"""Segments that are copied by instructions. The bytes of one become constants in a function that gives eight of them."""
from __future__ import annotations

from feulgama.lowering.words import body, code
from feulgama.wasm import writer as w

WORD = 8


def word_body(data: bytes) -> bytes:
    """A function from the number of a word to eight bytes of the segment, as a tree of comparisons."""
    words = [int.from_bytes(data[at:at + WORD].ljust(WORD, b"\0"), "little", signed=True) for at in range(0, len(data), WORD)]
    return b"\0" + tree(words, 0, max(1, len(words))) + b"\x0b"


def tree(words: list[int], begin: int, end: int) -> bytes:
    """The words from `begin` up to `end`."""
    if end - begin == 1:
        return b"\x42" + w.signed(words[begin] if words else 0)
    middle = (begin + end) // 2
    return (code(f"local.get 0 i32.const {middle} i32.lt_u if_i64") + tree(words, begin, middle) + code("else")
            + tree(words, middle, end) + code("end"))


def init_body(test: int, word: int | None, left: str) -> bytes:
    """A function that does what memory.init does: addresses and size are tested by the function `test`, and the bytes are
    those of `word`. `left` is the instruction that gives how many bytes the segment has left."""
    copying = "" if word is None else f"""
        block loop local.get 2 i32.eqz br_if 1
            local.get 0
            local.get 1 i32.const 3 i32.shr_u call {word}
            local.get 1 i32.const 7 i32.and i32.const 3 i32.shl i64.extend_i32_u i64.shr_u
            i64.store8
            local.get 0 i32.const 1 i32.add local.set 0
            local.get 1 i32.const 1 i32.add local.set 1
            local.get 2 i32.const -1 i32.add local.set 2
            br 0 end end"""
    return body(f"local.get 0 local.get 1 local.get 2 {left} call {test} {copying}")


def drop_body(left: int | None) -> bytes:
    """A function that does what data.drop does, by the global that says what is left."""
    return body("" if left is None else f"i32.const 0 global.set {left}")
