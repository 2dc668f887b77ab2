"""`feulgama attach`: opens the terminal debugger on a container of the containerd shim."""
from __future__ import annotations

import argparse
import contextlib
import sys
from pathlib import Path

from feulgama.attach.config import config_of
from feulgama.attach.door import STATE, find
from feulgama.attach.link import Link
from feulgama.attach.timeline import LiveTimeline
from feulgama.confinement import MEMORY, confinement
from feulgama.debug.commands import Commands
from feulgama.debug.debugger import Debugger
from feulgama.debug.symbols import Symbols
from feulgama.debug.terminal import debug, lines_of
from feulgama.lowering import LoweringError, lower
from feulgama.lowering.described import described
from feulgama.shim import Shim
from feulgama.wasm.module import Module, decode


def add_options(parser: argparse.ArgumentParser) -> None:
    """What the command line of the command may have."""
    parser.add_argument("--commands", metavar="FILE", type=Path, help="a file of commands that are done first")
    parser.add_argument("--memory", metavar="BYTES", type=int, default=MEMORY,
                        help=f"the most address space of the shim that makes turns once more, 0 for any (default: {MEMORY})")
    parser.add_argument("--namespace", metavar="NAME", help="containerd's namespace of the container (default: any)")
    parser.add_argument("--state", metavar="FOLDER", type=Path, default=STATE,
                        help=f"the folder of containerd's state (default: {STATE})")
    parser.add_argument("container", metavar="CONTAINER", help="the name of a container, or the beginning of it")


def modules_of(link: Link) -> tuple[Module, Module]:
    """The module that a container runs, and the same as its compiler described it."""
    with contextlib.suppress(LoweringError):
        found = lower(link.original) if link.original is not None else None
        if found is not None and link.original is not None and found.data == link.module:
            return decode(found.data), described(link.original, found)
    module = decode(link.module)
    return module, module


def open_container(shim: Shim, link: Link) -> tuple[Debugger, LiveTimeline]:
    """A debugger over the run of a container, at the turn that it is at."""
    module, source = modules_of(link)
    config = config_of(link.config, shim.ensure(module.sent))
    timeline = LiveTimeline(shim, config, module, link, lambda text: print(text, flush=True))
    timeline.new_output()  # what it has written before is in its log
    return Debugger(timeline, Symbols(source, [Path.cwd()])), timeline


def goodbye(link: Link, timeline: LiveTimeline) -> str:
    """What becomes of the container."""
    if timeline.live.exit is not None:
        return f"{link.container} has ended: {timeline.live.exit}"
    if link.is_closed:
        return f"{link.container} is not there any more"
    return f"{link.container} {'runs on from' if link.ran else 'stays paused at'} turn {timeline.live.turn}"


def run(found: argparse.Namespace) -> int:
    """Debugs a container until its user leaves. Raises FeulgamaError and OSError."""
    first = lines_of(found.commands)
    door = find(found.container, found.namespace, found.state)
    with contextlib.closing(Link(door)) as link, Shim(found.shim, workers=1, confined=confinement(found.memory)) as shim:
        debugger, timeline = open_container(shim, link)
        with contextlib.closing(timeline):
            print(f"{link.container} {'stands still' if link.ran else 'is shown'}; quit leaves it", flush=True)
            status = debug(Commands(debugger), sys.stdin, first)
        print(goodbye(link, timeline))
    return status
