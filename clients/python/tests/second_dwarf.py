"""A second reading of the descriptions of variables: what llvm-dwarfdump prints of them, evaluated over frames and memory.

It shares nothing with the debugger's own reader, which is over pyelftools.
"""
from __future__ import annotations

import re
import subprocess
from collections.abc import Callable
from dataclasses import dataclass, field
from pathlib import Path

from feulgama.model import Frame

DUMP = "llvm-dwarfdump-14"
ENTRY = re.compile(r"0x([0-9a-f]{8}):( +)(DW_TAG_\w+)")
ATTRIBUTE = re.compile(r" +(DW_AT_\w+)\t\((.*)")
RANGE = re.compile(r"\[0x([0-9a-f]+), 0x([0-9a-f]+)\)(?:: (.*))?")
SCOPES = ("DW_TAG_lexical_block", "DW_TAG_inlined_subroutine")
VARIABLES = ("DW_TAG_variable", "DW_TAG_formal_parameter")
SIZES = {"DW_TAG_pointer_type": 4, "DW_TAG_reference_type": 4}
Memory = Callable[[int, int], bytes]


class NotKnown(Exception):
    """What this reading cannot tell."""


@dataclass(slots=True)
class Entry:
    """An entry of the descriptions: its tag, its attributes as they are printed, and the entries in it."""
    tag: str
    attributes: dict[str, str] = field(default_factory=dict)
    inner: list["Entry"] = field(default_factory=list)


class SecondReading:
    """The descriptions of a module's file."""

    def __init__(self, file: Path) -> None:
        self.entries: dict[int, Entry] = {}
        self.units: list[Entry] = []
        lines = subprocess.run([DUMP, "--debug-line", file], check=True, capture_output=True, text=True).stdout
        self.prologue_ends = sorted(int(line.split()[0], 16) for line in lines.splitlines()
                                    if line.startswith("0x") and "prologue_end" in line)
        self._read(subprocess.run([DUMP, "--debug-info", file], check=True, capture_output=True, text=True).stdout)

    def _read(self, text: str) -> None:
        open_: list[Entry] = []
        key = ""
        for line in text.splitlines():
            if (entry := ENTRY.match(line)) is not None:
                found = self.entries[int(entry[1], 16)] = Entry(entry[3])
                del open_[len(entry[2]) // 2:]
                (open_[-1].inner if open_ else self.units).append(found)
                open_.append(found)
            elif open_ and (attribute := ATTRIBUTE.match(line)) is not None:
                key = attribute[1]
                open_[-1].attributes[key] = attribute[2]
            elif open_ and key and line.strip():
                open_[-1].attributes[key] += "\n" + line.strip()
            else:
                key = ""

    def variables(self, frame: Frame, at: int, memory: Memory) -> dict[str, bytes | None]:
        """The variables of a frame, the inner ones of those with one name: their bytes, or None if they are optimized
        out."""
        function = next((entry for entry in self.entries.values()
                         if entry.tag == "DW_TAG_subprogram" and is_within(entry, at)), None)
        if function is None:
            return {}
        base = function.attributes.get("DW_AT_frame_base", ")")[:-1]
        begin = min([int(found, 16) for found in re.findall(r"\[?0x([0-9a-f]+)", function.attributes.get(
            "DW_AT_low_pc", function.attributes.get("DW_AT_ranges", "").partition("[")[2]))] or [0])
        if at < next((row for row in self.prologue_ends if row >= begin), 0):
            base = ""  # it is not set up yet
        return self._inside(function, frame, at, memory, base)

    def _inside(self, entry: Entry, frame: Frame, at: int, memory: Memory, base: str) -> dict[str, bytes | None]:
        found: dict[str, bytes | None] = {}
        for inner in entry.inner:
            name = self.text_at(inner, "DW_AT_name")
            if inner.tag in VARIABLES and name is not None:
                found[name.split('"')[1]] = self.value(inner, frame, at, memory, base)
        for inner in entry.inner:
            if inner.tag in SCOPES and is_within(inner, at):
                found |= self._inside(inner, frame, at, memory, base)
        return found

    def text_at(self, entry: Entry, key: str) -> str | None:
        """An attribute of an entry, or of the one that it is an instance of."""
        while key not in entry.attributes:
            if "DW_AT_abstract_origin" not in entry.attributes:
                return None
            entry = self.entries[int(entry.attributes["DW_AT_abstract_origin"].split()[0], 16)]
        return entry.attributes[key]

    def size(self, entry: Entry) -> int:
        """How many bytes what an entry describes has."""
        kind = self.entries[int((self.text_at(entry, "DW_AT_type") or "").split()[0].rstrip(")"), 16)]
        if kind.tag in SIZES:
            return SIZES[kind.tag]
        if kind.tag == "DW_TAG_array_type":
            counts = [int(part.attributes["DW_AT_count"].rstrip(")"), 16) for part in kind.inner]
            product = self.size(kind)
            for count in counts:
                product *= count
            return product
        if "DW_AT_byte_size" in kind.attributes:
            return int(kind.attributes["DW_AT_byte_size"].rstrip(")"), 16)
        return self.size(kind)

    def value(self, entry: Entry, frame: Frame, at: int, memory: Memory, base: str) -> bytes | None:
        """The bytes of a variable; None if it is optimized out."""
        size = self.size(entry)
        if "DW_AT_const_value" in entry.attributes:
            return (int(entry.attributes["DW_AT_const_value"].rstrip(")"), 0) % (1 << 8 * size)).to_bytes(size, "little")
        words = self.expression(entry.attributes.get("DW_AT_location", ")"), at)
        return None if words is None else evaluated(words, size, frame, memory, base)

    @staticmethod
    def expression(text: str, at: int) -> str | None:
        """The expression of a location that holds at an offset of the code; None if none does."""
        ranges = [found for line in text.splitlines() if (found := RANGE.search(line)) is not None]
        if not ranges:
            return text.rstrip(")") or None
        for found in ranges:
            if int(found[1], 16) <= at < int(found[2], 16):
                return found[3].removesuffix(")")
        return None


def is_within(entry: Entry, at: int) -> bool:
    """Whether an offset of the code is in an entry."""
    if "DW_AT_ranges" in entry.attributes:
        found = [RANGE.search(line) for line in entry.attributes["DW_AT_ranges"].splitlines()]
        return any(one is not None and int(one[1], 16) <= at < int(one[2], 16) for one in found)
    if "DW_AT_high_pc" not in entry.attributes or "dead code" in entry.attributes.get("DW_AT_low_pc", "dead code"):
        return False
    return int(entry.attributes["DW_AT_low_pc"][:-1], 16) <= at < int(entry.attributes["DW_AT_high_pc"][:-1], 16)


@dataclass(slots=True)
class Stack:
    """The stack of an expression: numbers, and with each of how many bits the value is that it was made of, None of a
    constant, which has as many as what it meets. So the compilers mean it: of an i32 `shl 24, shra 24` is a signed byte."""
    numbers: list[tuple[int, int | None]] = field(default_factory=list)
    is_value: bool = False

    def push(self, number: int, bits: int | None = None) -> None:
        self.numbers.append((number, bits))

    def pop(self) -> int:
        return self.numbers.pop()[0]

    def bytes(self, size: int, memory: Memory) -> bytes | None:
        """The bytes that the top of the stack says; None if there is none."""
        if not self.numbers:
            return None
        number = self.pop()
        if not self.is_value:
            return memory(number % 2**32, size)
        return (number % 2**64).to_bytes(8, "little").ljust(size, b"\0")[:size]


def evaluated(words: str, size: int, frame: Frame, memory: Memory, base: str) -> bytes | None:
    """The bytes of a variable by the words of its expression; None if any of them is optimized out."""
    pieces, stack = b"", Stack()
    for word in words.split(", "):
        op, *rest = word.split()
        operands = [int(one, 0) for one in rest if re.fullmatch(r"[+-]?(0x)?[0-9a-f]+", one)]
        if op == "DW_OP_piece":
            part = stack.bytes(operands[0], memory)
            if part is None:
                return None
            pieces, stack = pieces + part, Stack()
        elif op == "DW_OP_stack_value":
            stack.is_value = True
        elif op == "DW_OP_WASM_location":
            values = (frame.locals, None, frame.operands)[operands[0]] if operands[0] < 3 else None
            if values is None or operands[1] >= len(values):
                return None
            bits = 32 if values[operands[1]].type == "i32" else 64
            stack.push(values[operands[1]].number % 2**bits, bits)
            stack.is_value = True
        elif op == "DW_OP_fbreg":
            local = re.fullmatch(r"DW_OP_WASM_location 0x0 (0x[0-9a-f]+), DW_OP_stack_value", base)
            if local is None:
                return None
            stack.push(frame.locals[int(local[1], 16)].number + operands[0], 32)
        else:
            compute(op, operands, stack, memory)
    return pieces.ljust(size, b"\0") if pieces else stack.bytes(size, memory)


def compute(op: str, operands: list[int], stack: Stack, memory: Memory) -> None:
    """An operation on the stack of numbers."""
    if op.startswith("DW_OP_lit"):
        stack.push(int(op.removeprefix("DW_OP_lit")))
    elif op.startswith("DW_OP_const") or op == "DW_OP_addr":
        stack.push(operands[0])
    elif op == "DW_OP_plus_uconst":
        number, bits = stack.numbers.pop()
        stack.push((number + operands[0]) % 2**(bits or 64), bits)
    elif op == "DW_OP_deref":
        stack.push(int.from_bytes(memory(stack.pop() % 2**32, 4), "little"), 32)
    elif op == "DW_OP_dup":
        stack.numbers.append(stack.numbers[-1])
    elif op == "DW_OP_not":
        number, bits = stack.numbers.pop()
        stack.push(2**(bits or 64) - 1 - number, bits or 64)
    elif op in BINARY:
        (right, one), (left, other) = stack.numbers.pop(), stack.numbers.pop()
        known = [bits for bits in (one, other) if bits is not None]
        bits = max(known) if known else 64
        stack.push(BINARY[op](left % 2**bits, right % 2**bits, bits) % 2**bits, bits if known else None)
    else:
        raise NotKnown(op)


def shifted(left: int, right: int, bits: int) -> int:
    """A number shifted to the right, its sign kept."""
    return (left - (1 << bits) if left >= 1 << bits - 1 else left) >> right


BINARY: dict[str, Callable[[int, int, int], int]] = {
    "DW_OP_plus": lambda left, right, _: left + right, "DW_OP_minus": lambda left, right, _: left - right,
    "DW_OP_and": lambda left, right, _: left & right, "DW_OP_or": lambda left, right, _: left | right,
    "DW_OP_xor": lambda left, right, _: left ^ right, "DW_OP_mul": lambda left, right, _: left * right,
    "DW_OP_shl": lambda left, right, _: left << right, "DW_OP_shr": lambda left, right, _: left >> right,
    "DW_OP_shra": shifted}
