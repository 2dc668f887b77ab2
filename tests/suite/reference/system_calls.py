"""The system calls of WASI snapshot_preview1 that the profile has (docs/PROFILE.md), from its witx files."""
from __future__ import annotations

from collections.abc import Callable
from typing import TYPE_CHECKING

if TYPE_CHECKING:
    from suite.reference.execute import Machine
    from suite.reference.wasm import Module

I32 = 0x7F

MODULE = b"wasi_snapshot_preview1"
MOST_OUTPUT = 65_536
SUCCESS, BADF, FAULT, NOSPC = 0, 8, 21, 51


def number(memory: bytearray, address: int) -> int:
    return int.from_bytes(memory[address:address + 4], "little")


def write_both(memory: bytearray, first_at: int, first: bytes, second_at: int, second: bytes) -> int:
    if first_at + len(first) > len(memory) or second_at + len(second) > len(memory):
        return FAULT
    memory[first_at:first_at + len(first)] = first
    memory[second_at:second_at + len(second)] = second
    return SUCCESS


def sizes_get(texts: list[bytes], memory: bytearray, count_at: int, size_at: int) -> int:
    size = sum(len(text) + 1 for text in texts)
    return write_both(memory, count_at, len(texts).to_bytes(4, "little"), size_at, size.to_bytes(4, "little"))


def texts_get(texts: list[bytes], memory: bytearray, pointers_at: int, texts_at: int) -> int:
    pointers, at = b"", texts_at
    for text in texts:
        # Of no use where the texts are not inside memory, since nothing is written then.
        pointers += (at % 2**32).to_bytes(4, "little")
        at += len(text) + 1
    return write_both(memory, pointers_at, pointers, texts_at, b"".join(text + b"\0" for text in texts))


def fd_write(machine: Machine, descriptor: int, buffers_at: int, count: int, written_at: int) -> int:
    memory, stream = machine.memory, machine.streams.get(descriptor)
    if stream is None:
        return BADF
    if buffers_at + 8 * count > len(memory) or written_at + 4 > len(memory):
        return FAULT
    asked = b""
    for at in range(buffers_at, buffers_at + 8 * count, 8):
        start, size = number(memory, at), number(memory, at + 4)
        if start + size > len(memory):
            return FAULT
        asked += memory[start:start + size]
    if asked and len(stream) == MOST_OUTPUT:
        return NOSPC
    taken = asked[:MOST_OUTPUT - len(stream)]
    stream += taken
    memory[written_at:written_at + 4] = len(taken).to_bytes(4, "little")
    return SUCCESS


def no_answer(_machine: Machine, _status: int) -> int:
    """The machine ends the task before this is called."""
    raise AssertionError("proc_exit has no answer")


# Each call's parameters, its results, and what it does; proc_exit is the machine's own.
CALLS: dict[bytes, tuple[tuple[int, ...], tuple[int, ...], Callable[..., int]]] = {
    b"args_sizes_get": ((I32, I32), (I32,), lambda m, *given: sizes_get(m.args, m.memory, *given)),
    b"args_get": ((I32, I32), (I32,), lambda m, *given: texts_get(m.args, m.memory, *given)),
    b"environ_sizes_get": ((I32, I32), (I32,), lambda m, *given: sizes_get(m.env, m.memory, *given)),
    b"environ_get": ((I32, I32), (I32,), lambda m, *given: texts_get(m.env, m.memory, *given)),
    b"fd_write": ((I32,) * 4, (I32,), fd_write),
    b"proc_exit": ((I32,), (), no_answer),
    b"sched_yield": ((), (I32,), lambda _machine: SUCCESS),
}


def is_known(names: tuple[bytes, bytes], func_type: tuple[tuple[int, ...], tuple[int, ...]]) -> bool:
    """Whether an import of these names and this type is one of the calls."""
    module, name = names
    return module == MODULE and name in CALLS and CALLS[name][:2] == func_type


def lacks_memory(module: Module) -> bool:
    """Whether a call that reads or writes memory is imported by name, and no memory is exported as `memory`."""
    without = (b"proc_exit", b"sched_yield")
    needed = any(names[0] == MODULE and names[1] in CALLS and names[1] not in without for names, _ in module.imports)
    return needed and not any(name == b"memory" and kind == 2 for name, kind, _ in module.exports)
