"""The words of the command line: `feulgama debug`, `attach`, `timeline`, `dap` and `lower`."""
from __future__ import annotations

import argparse
import contextlib
import io
import os
import signal
import sys
import time
from collections.abc import Sequence
from pathlib import Path

from feulgama.attach import command as attaching
from feulgama.dap.adapter import serve
from feulgama.debug.calls_over_time import told
from feulgama.debug.commands import Commands
from feulgama.debug.debugger import Debugger
from feulgama.debug.page import page
from feulgama.debug.terminal import debug, lines_of
from feulgama.errors import FeulgamaError
from feulgama.files import write_whole
from feulgama.lowering import command as lowering
from feulgama.opening import module_bytes, open_debugger
from feulgama.program import program, version_of
from feulgama.shim import Shim
from feulgama.version import __version__


def variable(text: str) -> tuple[str, str]:
    """A variable of the environment, as NAME=VALUE."""
    name, equals, value = text.partition("=")
    if not name or not equals:
        raise argparse.ArgumentTypeError(f"{text} is no NAME=VALUE")
    return name, value


def parser() -> argparse.ArgumentParser:
    """What the command line may be."""
    top = argparse.ArgumentParser(prog="feulgama", description="Debugs and lowers WebAssembly modules, the tasks of a shim.")
    top.add_argument("--shim", metavar="FILE", help="the shim's program (by default that of FEULGAMA_SHIM, or wasm-shim "
                                                    "on PATH, or the one that tools/shim builds in a clone)")
    top.add_argument("--version", "-V", action="store_true", help="the versions of this package and of the shim")
    commands = top.add_subparsers(dest="command", metavar="COMMAND")
    terminal = commands.add_parser("debug", help="debugs a module in the terminal")
    terminal.add_argument("--commands", metavar="FILE", type=Path, help="a file of commands that are done first")
    attaching.add_options(commands.add_parser("attach", help="debugs a container of the containerd shim in the terminal"))
    picture = commands.add_parser("timeline", help="writes a page that shows a run: its calls over its turns")
    picture.add_argument("-o", "--output", metavar="FILE", type=Path, required=True, help="the page, in HTML")
    picture.add_argument("--turns", metavar="TURNS", type=int, default=100_000_000, help="the most turns that are run")
    for command in (terminal, picture):
        command.add_argument("--env", metavar="NAME=VALUE", type=variable, action="append", default=[],
                             help="a variable of the task's environment")
        command.add_argument("--memory", metavar="BYTES", type=int, help="the most memory that the task may have")
        command.add_argument("module", metavar="MODULE", type=Path, help="a module, as bytes or as text")
        more = command.add_argument("args", metavar="ARG", nargs=argparse.REMAINDER, help="the task's arguments")
        more.required = False  # argparse would name it among what is missing
    commands.add_parser("dap", help="speaks the Debug Adapter Protocol on standard input and output")
    lowering.add_options(commands.add_parser("lower", help="translates a module to the shim's profile"))
    return top


def show_versions(shim_file: str | None) -> int:
    """Shows the version of this package, and that of the shim's program, if one is found."""
    print(f"feulgama {__version__}")
    try:
        words = program(shim_file)
        print(f"{version_of(words)} ({words[-1]})")
    except FeulgamaError as error:
        print(f"wasm-shim: {error}")
    return 0


class Progress:
    """Says on standard error how far a run is, every two seconds."""

    def __init__(self) -> None:
        self._told = time.monotonic()

    def __call__(self, turn: int, turns: int) -> None:
        if time.monotonic() - self._told > 2:
            self._told = time.monotonic()
            print(f"feulgama: turn {turn} of {turns}", file=sys.stderr)


def write_timeline(debugger: Debugger, file: Path, turns: int, title: str) -> int:
    """Writes the page of a run; Ctrl-C ends the run at the turn that it has come to."""
    interrupted = debugger.timeline.interrupted
    before = signal.signal(signal.SIGINT, lambda _number, _frame: interrupted.set())
    try:
        story = told(debugger, turns, interrupted, Progress())
    finally:
        signal.signal(signal.SIGINT, before)
    write_whole(file, page(story, debugger.symbols, title).encode(errors="backslashreplace"))
    return 0


def perform(found: argparse.Namespace) -> int:
    """Does what a command asks for; its status. Raises FeulgamaError and OSError."""
    if found.version:
        return show_versions(found.shim)
    if found.command == "dap":
        return serve(found.shim)
    if found.command == "attach":
        return attaching.run(found)
    if found.command == "lower" and found.module == lowering.STREAM:
        return lowering.run(found, sys.stdin.buffer.read())
    data = module_bytes(found.module, found.shim)
    if found.command == "lower":
        return lowering.run(found, data)
    if found.command == "timeline" and not found.output.parent.is_dir():
        raise FeulgamaError(f"there is no folder {found.output.parent} for the page")
    with Shim(found.shim, workers=1) as shim:
        opened = open_debugger(shim, found.module, data, found.args, dict(found.env), found.memory)
        with contextlib.closing(opened.timeline):
            if found.command == "timeline":
                return write_timeline(opened, found.output, found.turns, found.module.name)
            return debug(Commands(opened), sys.stdin, lines_of(found.commands))


def give_up_output() -> None:
    """Lets what standard output does not take go nowhere. Python would try once more at the end, and say that it fails."""
    try:
        sys.stdout.flush()
    except OSError:
        with open(os.devnull, "wb") as nowhere:
            os.dup2(nowhere.fileno(), sys.stdout.fileno())


def complete_streams() -> None:
    """Puts a file that has nothing and keeps nothing in the place of each standard stream that is closed. It is opened under
    the number of that stream, which a pipe would take otherwise. Standard output shows characters that its encoding does not
    have by their numbers."""
    for name, mode in (("stdin", "r"), ("stdout", "w"), ("stderr", "w")):
        if getattr(sys, name) is None:
            setattr(sys, name, open(os.devnull, mode))
    if isinstance(sys.stdout, io.TextIOWrapper):
        sys.stdout.reconfigure(errors="backslashreplace")


def main(words: Sequence[str] | None = None) -> int:
    """Does what the command line asks for; its status. What goes wrong is a line on standard error."""
    complete_streams()
    top = parser()
    found = top.parse_args(words)
    if found.command is None and not found.version:
        top.error("a command is needed: debug, attach, timeline, dap or lower")
    try:
        status = perform(found)
        sys.stdout.flush()
        return status
    except (FeulgamaError, OSError) as error:
        give_up_output()
        print(f"feulgama: {error}", file=sys.stderr)
        return 1
    except MemoryError:
        print("feulgama: out of memory", file=sys.stderr)
        return 1
    except KeyboardInterrupt:
        return 130
