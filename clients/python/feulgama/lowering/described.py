"""A lowered module as its compiler described the original: for lines and variables of a debugger."""
from __future__ import annotations

from collections.abc import Iterable
from dataclasses import replace

from feulgama.lowering import floats
from feulgama.lowering.lower import Lowered
from feulgama.lowering.source import sections_of
from feulgama.wasm import opcodes as op
from feulgama.wasm.module import FuncType, Function, Module, decode
from feulgama.wasm.reader import NotAModuleError, Reader

NOWHERE = 2**40  # after all code that a compiler describes


def described(original: bytes, found: Lowered) -> Module:
    """The functions and places are those of the lowered module. The offsets of instructions, the types of functions and
    locals, and the custom sections, are those of the original. Functions that were added are at no offset of it. Raises
    NotAModuleError."""
    module = decode(found.data)
    module.functions = [placed(function, found) for function in module.functions]
    for section in sections_of(original):
        if section.number == 0:
            reader = Reader(original, section.begin, section.end)
            try:
                name = reader.name()
            except NotAModuleError:
                continue
            module.customs.setdefault(name, original[reader.at:section.end])
    return module


def placed(function: Function, found: Lowered) -> Function:
    """A function with the offsets and the types of the original."""
    own = function.index - found.first
    if not 0 <= own < len(found.originals):
        instructions = tuple(replace(one, offset=NOWHERE) for one in function.instructions)
        return replace(function, begin=NOWHERE, end=NOWHERE, instructions=instructions)
    body = found.originals[own]
    instructions = tuple(replace(one, offset=at) for one, at in zip(function.instructions, body.offsets))
    params, results = map(words_of, found.kinds[own])
    declared = words_of([kind for count, kind in body.locals for _ in range(count)])
    return replace(function, type=FuncType(params, results), locals=params + declared, begin=body.begin, end=body.end,
                   instructions=instructions)


def words_of(kinds: Iterable[int]) -> tuple[str, ...]:
    """The words of types."""
    return tuple((op.TYPES | floats.TYPES)[kind] for kind in kinds)
