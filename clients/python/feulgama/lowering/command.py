"""The command `feulgama lower`."""
from __future__ import annotations

import argparse
import sys
from pathlib import Path

from feulgama.errors import FeulgamaError
from feulgama.files import write_whole
from feulgama.lowering.additions import SEED
from feulgama.lowering.errors import LoweringError
from feulgama.lowering.lower import Lowered, Options, lower

MOST_BYTES = 262_144
STREAM = Path("-")
FIXED = "random_get gives the same numbers in each run, so they are no secrets (--seed, --refuse random_get)"


def seed(text: str) -> int:
    """A seed from the command line."""
    number = int(text, 0)
    if not 0 < number < 2**64:
        raise argparse.ArgumentTypeError("a seed is from 1 to 2^64 - 1")
    return number


def add_options(command: argparse.ArgumentParser) -> None:
    """The words of the command."""
    command.add_argument("-o", "--output", metavar="OUT", type=Path,
                         help="the lowered module; - is standard output, which it is by default")
    command.add_argument("--list", action="store_true", help="says what is replaced; without -o no module is written")
    command.add_argument("--refuse", metavar="NAME", action="append", default=[],
                         help="refuses a module that imports this call and would be given an answer of the tool's")
    command.add_argument("--seed", metavar="NUMBER", type=seed, default=SEED, help="the seed of the numbers of random_get")
    command.add_argument("--strip", action="store_true", help="leaves out custom sections")
    command.add_argument("module", metavar="IN", type=Path, help="a module, as bytes or as text; - is standard input")


def listing(found: Lowered) -> str:
    """What was replaced, a line for each thing."""
    lines = [f"{count} {what}" for what, count in sorted(found.replaced.items())]
    return "\n".join([*lines, *(f"left out: {name}" for name in found.left_out)] or ["nothing to lower"])


def run(words: argparse.Namespace, data: bytes) -> int:
    """Lowers a module. The status is 0; refusals are exceptions."""
    try:
        found = lower(data, Options(frozenset(words.refuse), words.seed, words.strip))
    except LoweringError as error:
        raise LoweringError(f"{words.module}: {error}") from error
    is_written = words.output == STREAM or words.output is None and not words.list
    if words.list:
        print(listing(found), file=sys.stderr if is_written else sys.stdout)
    if words.output is not None and not is_written:
        write_whole(words.output, found.data)
    elif is_written:
        if sys.stdout.isatty():
            raise FeulgamaError("a module is not written to a terminal; -o OUT names a file")
        sys.stdout.buffer.write(found.data)
        sys.stdout.buffer.flush()
    if "random_get" in found.replaced:
        print(f"feulgama: {FIXED}", file=sys.stderr)
    if len(found.data) > MOST_BYTES:
        print(f"feulgama: {words.module}: the lowered module has {len(found.data)} bytes, and the shim takes {MOST_BYTES}; "
              "--strip leaves out custom sections", file=sys.stderr)
    return 0
