"""What the benches share: where the program is, how they are called, and how the binary format writes sizes."""
import os
import sys

TOP = os.path.dirname(os.path.dirname(os.path.abspath(__file__)))


def arguments(rounds: int) -> tuple[str, int]:
    """The program and the number of rounds that `[PROGRAM] [--rounds N]` ask for; this number without it."""
    words = sys.argv[1:]
    if "--rounds" in words:
        at = words.index("--rounds")
        rounds = int(words[at + 1])
        del words[at:at + 2]
    return words[0] if words else os.path.join(TOP, "crates/wasm_shim/out/wasm_shim"), rounds


def leb(number: int) -> bytes:
    groups = [number & 0x7F]
    while number := number >> 7:
        groups.append(number & 0x7F)
    return bytes(group | 0x80 for group in groups[:-1]) + bytes(groups[-1:])


def sized(part: bytes) -> bytes:
    return leb(len(part)) + part
