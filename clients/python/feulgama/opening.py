"""Opens a module's file for a debugger."""
from __future__ import annotations

from collections.abc import Mapping, Sequence
from pathlib import Path

from feulgama.config import Config
from feulgama.debug.debugger import Debugger
from feulgama.debug.symbols import Symbols
from feulgama.debug.timeline import Timeline
from feulgama.errors import FeulgamaError, LimitError, RefusalError
from feulgama.lowering import LoweringError, lower
from feulgama.lowering.described import described
from feulgama.program import assemble, program, refusal_by_check
from feulgama.shim import Shim
from feulgama.wasm.module import Module, decode
from feulgama.wasm.reader import NotAModuleError

MOST_BYTES = 262_144
MORE_MEMORY = "its memory may begin with more pages than the task may have, and {} can raise that"
# What raises the limit, for a config and for who starts a debugger.
IN_CONFIG, BY_OPTION = "linux.resources.memory.limit", "--memory (`memory` in an editor's configuration)"


class NeedsMemoryError(FeulgamaError):
    """The module passes a limit; mostly its memory begins with more than a task without a limit may have."""


class RefusedError(FeulgamaError):
    """The shim refuses the module. The message says why, as `wasm-shim check --task --explain` does."""


NeedsMemory = NeedsMemoryError


def module_bytes(path: Path, shim_file: str | None) -> bytes:
    """The bytes of a module's file, in the binary or the text format."""
    data = path.read_bytes()
    return data if data[:1] == b"\0" else assemble(data, program(shim_file))


def open_module(data: bytes) -> tuple[bytes, Module, Module]:
    """The bytes that are run, their module, and the same as its compiler described it. A module that is not in the profile
    is lowered; one that cannot be lowered stays, and the shim says why it is refused. Raises NotAModuleError."""
    try:
        found = lower(data)
    except LoweringError:
        found = None
    if found is None or not found.replaced:
        module = decode(data)
        return data, module, module
    return found.data, decode(found.data), described(data, found)


def open_debugger(shim: Shim, path: Path, data: bytes, args: Sequence[str], env: Mapping[str, str],
                  memory_limit: int | None) -> Debugger:
    """A debugger over a run of a module, before its first turn. Its arguments are the module's path and these. A module
    that is not in the profile is lowered. The shim is sent the module without its custom sections, so that one with large
    descriptions of its source can be opened. Raises RefusedError if the shim refuses the module, and NeedsMemoryError if
    more memory might help."""
    try:
        data, module, source = open_module(data)
    except NotAModuleError as error:
        told = refusal_by_check(data, memory_limit, shim.program)
        raise RefusedError(f"{path}: {told or error}") from error
    if len(module.sent) > MOST_BYTES:
        raise RefusedError(f"{path} has {len(module.sent)} bytes without its custom sections, and a module may have "
                           f"{MOST_BYTES}")
    digest = shim.ensure(module.sent)
    try:
        timeline = Timeline(shim, Config(digest, (str(path), *args), env, memory_limit), module)
    except LimitError as error:
        told = str(error) if error.why else f"{error}; {MORE_MEMORY.format(IN_CONFIG)}"
        raise NeedsMemoryError(f"{path}: {told.replace(IN_CONFIG, BY_OPTION)}") from error
    except RefusalError as error:
        told = refusal_by_check(data, memory_limit, shim.program) if len(data) <= MOST_BYTES else None
        raise RefusedError(f"{path}: {told or error}") from error
    return Debugger(timeline, Symbols(source, [path.parent, Path.cwd()]))
