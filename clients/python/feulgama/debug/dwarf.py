"""Line tables and variables of the custom sections that `clang -g` writes, read by Debian's python3-pyelftools if it is
there."""
from __future__ import annotations

import posixpath
import sys
from collections.abc import Iterator
from io import BytesIO
from typing import Any

from feulgama.debug.c_variables import Variables
from feulgama.debug.lines import Lines, Row, SourceLine
from feulgama.wasm.module import Module

try:
    from elftools.common.exceptions import DWARFError, ELFParseError
    from elftools.construct import ConstructError, StaticField
    from elftools.dwarf.dwarfinfo import DebugSectionDescriptor, DwarfConfig, DWARFInfo
except ImportError:
    IS_THERE = False
    FAULTS: tuple[type[Exception], ...] = ()
else:
    IS_THERE = True
    # What pyelftools raises over bytes that are no DWARF: it looks for few faults itself.
    FAULTS = (DWARFError, ELFParseError, ConstructError, ArithmeticError, AssertionError, AttributeError, LookupError,
              RecursionError, TypeError, ValueError)

SECTIONS = ("info", "aranges", "abbrev", "frame", "str", "loc", "ranges", "line", "pubtypes", "pubnames", "addr",
            "str_offsets", "line_str", "loclists", "rnglists", "sup")
OTHERS = ("eh_frame_sec", "gnu_debugaltlink_sec", "debug_types_sec")


def lines_of(module: Module) -> Lines | None:
    """The line table of a module; None if it has none, or one with a fault, or if pyelftools is not there."""
    if not IS_THERE or ".debug_line" not in module.customs or ".debug_info" not in module.customs:
        return None
    try:
        rows = list(rows_of(module))
    except FAULTS:
        return None
    return Lines(module, rows) if rows else None


def variables_of(module: Module) -> Variables | None:
    """The variables of C of a module; None if there are none, or their descriptions have a fault, or if pyelftools is not
    there."""
    if not IS_THERE or ".debug_info" not in module.customs or ".debug_abbrev" not in module.customs:
        return None
    try:
        return Variables(dwarf_of(module))
    except FAULTS:
        return None


def why_no_lines(module: Module) -> str:
    """Why nothing is known of a module's lines and variables, for a person."""
    if ".debug_info" not in module.customs:
        return "the module has no line tables and no variables (clang -g writes them)"
    if not IS_THERE:
        return f"the module has line tables, and python3-pyelftools, which reads them, is not installed for {sys.executable}"
    return "the line tables fit none of the functions, or have a fault; was the module changed after linking (wasm-opt)?"


def dwarf_of(module: Module) -> Any:
    """What pyelftools reads of the module's custom sections."""
    names = DWARFInfo.__init__.__code__.co_varnames[:DWARFInfo.__init__.__code__.co_argcount]
    given: dict[str, Any] = {name: None for name in OTHERS if name in names}
    for name in SECTIONS:
        if f"debug_{name}_sec" in names:
            given[f"debug_{name}_sec"] = section(module, f".debug_{name}")
    config = DwarfConfig(little_endian=True, machine_arch="wasm", default_address_size=4)
    found = DWARFInfo(config=config, **given)
    for unit in found.iter_CUs():  # the digest of a source in a line table of DWARF 5, which pyelftools 0.29 does not read
        unit.structs.Dwarf_dw_form.setdefault("DW_FORM_data16", StaticField("", 16))
    return found


def section(module: Module, name: str) -> Any:
    data = module.customs.get(name)
    if data is None:
        return None
    return DebugSectionDescriptor(stream=BytesIO(data), name=name, global_offset=0, size=len(data), address=0)


def rows_of(module: Module) -> Iterator[Row]:
    """The rows of all units, but for those of functions that were left out by the linker."""
    dwarf = dwarf_of(module)
    for unit in dwarf.iter_CUs():
        program = dwarf.line_program_for_CU(unit)
        if program is None:
            continue
        folder = text(unit.get_top_DIE().attributes.get("DW_AT_comp_dir"))
        files = files_of(program, folder, unit["version"])
        for sequence in sequences(program):
            yield from rows_of_sequence(module, sequence, files)


def text(attribute: Any) -> str:
    return str(attribute.value, errors="replace") if attribute is not None else ""


def files_of(program: Any, folder: str, version: int) -> list[str]:
    """The paths of a unit's files, by the numbers that its rows have."""
    header = program.header
    folders = [part.decode(errors="replace") for part in header["include_directory"]]
    if version < 5:
        folders.insert(0, folder)
    found = [] if version >= 5 else [""]
    for entry in header["file_entry"]:
        inside = folders[entry.dir_index] if entry.dir_index < len(folders) else ""
        path = posixpath.join(folder, inside, entry.name.decode(errors="replace"))
        found.append(posixpath.normpath(path))
    return found


def sequences(program: Any) -> Iterator[list[Any]]:
    """The states of a line program, cut at the ends of its sequences."""
    states: list[Any] = []
    for entry in program.get_entries():
        if entry.state is not None:
            states.append(entry.state)
            if entry.state.end_sequence:
                yield states
                states = []


def rows_of_sequence(module: Module, states: list[Any], files: list[str]) -> Iterator[Row]:
    """The rows of a sequence. The linker gives a function that it leaves out an address in none of those that are."""
    first = states[0].address
    if not any(function.begin <= first < function.end for function in module.functions):
        return
    ends_prologue = False
    for at, state in enumerate(states):
        is_last_at_address = at + 1 == len(states) or states[at + 1].address != state.address
        ends_prologue = ends_prologue or bool(state.prologue_end)
        if state.end_sequence:
            yield Row(state.address, None, False)
        elif is_last_at_address:
            known = state.line > 0 and state.file < len(files)
            source = SourceLine(files[state.file], state.line) if known else None
            yield Row(state.address, source, bool(state.is_stmt), ends_prologue)
            ends_prologue = False
