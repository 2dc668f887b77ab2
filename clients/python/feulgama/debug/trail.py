"""The way to a turn, turn by turn: what was seen at each, and what memory held before each write.

Who went back a long way may go back further. So the last turns of the way are made one by one, and kept: the frames of
each, and the bytes that a store is about to overwrite. With these, memory at a turn of the trail is what the task's memory
is at the trail's end, with the later writes taken back.
"""
from __future__ import annotations

import re
from dataclasses import dataclass, field

from feulgama import requests
from feulgama.debug.look import Look
from feulgama.debug.running import Watch
from feulgama.debug.track import Track
from feulgama.model import Frame
from feulgama.wasm import opcodes as op
from feulgama.wasm.body import Instruction
from feulgama.wasm.module import Module

OFFSET = re.compile(r"offset=(\d+)")
# System calls: how many of their last operands are addresses at which they write four bytes.
WRITTEN_WORDS = {"fd_write": 1, "args_sizes_get": 2, "environ_sizes_get": 2, "proc_exit": 0, "sched_yield": 0}


@dataclass(frozen=True, slots=True)
class Write:
    """The turn after `turn` turns writes to memory from `address` on, where there was `before`."""
    turn: int
    address: int
    before: bytes


@dataclass(slots=True)
class Trail:
    """What was kept. Memory is known from the turn `known_from` up to the turn `end`, at which the trail's task is."""
    end: int
    known_from: int
    lines: dict[int, bytes] = field(default_factory=dict)
    writes: list[Write] = field(default_factory=list)

    def knows_memory(self, turn: int) -> bool:
        """Whether memory at a turn can be told from that of the task at the trail's end."""
        return self.known_from <= turn <= self.end

    def memory_at(self, turn: int, address: int, data: bytes) -> bytes:
        """What memory held from an address on at a turn, if it holds these bytes at the trail's end."""
        found = bytearray(data)
        for write in reversed(self.writes):
            if write.turn < turn:
                break
            begin = max(write.address, address)
            end = min(write.address + len(write.before), address + len(data))
            if begin < end:
                found[begin - address:end - address] = write.before[begin - write.address:end - write.address]
        return bytes(found)


def leave_trail(track: Track, module: Module, turn: int) -> Trail:
    """Lets a task go on to a turn, one turn at a time, and keeps what is seen on the way."""
    trail = Trail(turn, track.turn)
    look = track.look()
    trail.lines[look.turn] = look.line
    while track.exit is None and track.turn < turn:
        addresses = written_by(module, look)
        for address, size in addresses or ():
            before, = track.peek([(address, size)])
            if isinstance(before, bytes):
                trail.writes.append(Write(look.turn, address, before))
        depth, found = look.depth, track.looks(1, 1, frozenset(), Watch())
        if not found:
            break
        look = found[0]
        trail.lines[look.turn] = look.line
        if addresses is None and look.depth <= depth:
            trail.known_from = look.turn
            trail.writes.clear()
    trail.end = track.turn
    return trail


def written_by(module: Module, look: Look) -> list[tuple[int, int]] | None:
    """The addresses and the sizes of what the next turn may write; None if that is not known, unless it enters a
    function."""
    instruction = module.instruction(*look.place) if look.place is not None else None
    if instruction is None:
        return []
    if instruction.opcode in op.STORES:
        return [stored(instruction, innermost(look))]
    if instruction.opcode == op.CALL:
        index = int(instruction.text.split()[1])
        return written_by_call(module.imports[index][1], look) if index < len(module.imports) else []
    return None if instruction.opcode in (op.CALL_INDIRECT, op.MEMORY_GROW) else []


def stored(instruction: Instruction, frame: Frame) -> tuple[int, int]:
    """Where a store writes: its address is the operand below the value."""
    offset = OFFSET.search(instruction.text)
    address = frame.operands[-2].number % 2**32 + (int(offset[1]) if offset is not None else 0)
    return address, op.ACCESSES[instruction.opcode][1]


def after_store(instruction: Instruction, look: Look, address: int, data: bytes) -> bytes | None:
    """What bytes from an address on are after the next instruction, if it is a store; None of another one."""
    if instruction.opcode not in op.STORES:
        return None
    frame = innermost(look)
    at, size = stored(instruction, frame)
    value = (frame.operands[-1].number % 2**(8 * size)).to_bytes(size, "little")
    return bytes(value[one - at] if at <= one < at + size else byte for one, byte in enumerate(data, address))


def written_by_call(name: str, look: Look) -> list[tuple[int, int]] | None:
    """Where a system call writes; None of one that writes texts."""
    count = WRITTEN_WORDS.get(name)
    if count is None:
        return None
    operands = innermost(look).operands
    return [(value.number % 2**32, 4) for value in operands[len(operands) - count:]]


def innermost(look: Look) -> Frame:
    """The innermost frame of a look."""
    return requests.inspect("").result(look.line).frames[0]
