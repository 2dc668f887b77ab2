"""Which call a frame is in, by what an `inspect` shows of the frame."""
from __future__ import annotations

from collections.abc import Sequence

from feulgama.wasm.body import Instruction

Shown = tuple[tuple[int, ...], int | None]


def calls_of(instructions: Sequence[Instruction]) -> dict[Shown, list[int]]:
    """The places of the calls of a body, by the blocks that are open there, the innermost first, and the place that
    follows once the call has returned, None at the body's end. Two calls may be alike in that: the last ones of the two
    arms of an `if`."""
    after = siblings(instructions)
    found: dict[Shown, list[int]] = {}
    for instruction in instructions:
        if instruction.is_call:
            key = blocks_round(instructions, instruction), follower(instructions, instruction, after)
            found.setdefault(key, []).append(instruction.place)
    return found


def siblings(instructions: Sequence[Instruction]) -> dict[int, int]:
    """The next instruction in the same arm of the same block, of each that has one."""
    last: dict[tuple[int | None, bool], int] = {}
    after: dict[int, int] = {}
    for instruction in instructions:
        arm = instruction.block, instruction.is_in_else
        if arm in last:
            after[last[arm]] = instruction.place
        last[arm] = instruction.place
    return after


def blocks_round(instructions: Sequence[Instruction], instruction: Instruction) -> tuple[int, ...]:
    """The blocks round an instruction, the innermost first."""
    blocks: list[int] = []
    while instruction.block is not None:
        blocks.append(instruction.block)
        instruction = instructions[instruction.block]
    return tuple(blocks)


def follower(instructions: Sequence[Instruction], instruction: Instruction, after: dict[int, int]) -> int | None:
    """The instruction that follows one, through the ends of blocks."""
    while instruction.place not in after:
        if instruction.block is None:
            return None
        instruction = instructions[instruction.block]
    return after[instruction.place]
