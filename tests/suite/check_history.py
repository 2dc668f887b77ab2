"""Checks that what several callers of `serve` were answered is a history that a board can have had.

    tests/run check-history [--order] [--states N] [--module FILE].. SCRIPT.. <REPLIES
    tests/run check-history --self-test [COUNT [SEED]]

The SCRIPTs are those that `wasm-shim serve SCRIPT..` was given, in their order, and REPLIES is what it printed. The
history is legal if there is one order of all calls, in which each caller's own calls keep their order, so that each
reply is what one board answers at its place, where slices of tasks that run may have been made between any two calls.
The board is in Python, in tests/suite/history/ and reference/, from docs/PROTOCOL.md and docs/definitions; it knows
nothing of the program.

It prints whether the history is legal, with --order also that order: caller, line, request and reply. If it is not, it
prints how many calls can be explained, with --order in which order, and what each caller was answered next; and the
calls that no order explains, if there are some. The status is 0 if the history is legal, 1 if not, and 2 if that was
not decided: the command line is wrong, a file cannot be read, or the search came to more than N states. Whether it
is decided hangs on the history: four callers with 12,000 calls of a slow program came to some 100,000 states, but those
of the built program, of whose calls half are accepted, were not decided; with 70 calls each they are.

What a module does is known if it was put by its bytes, which --module FILE gives for one that was put as a text; and if
in the first 20,000 turns it ends, or comes back to where it was. Of any other it is only asked that its counts do not
fall, that its outputs go on from what was read of them, and that it has one end. What is not looked at: bytes that
`peek` shows, and where a task with breakpoints is when one pauses it.

--self-test tries the checker: histories that are right and wrong ones, made on purpose, and COUNT random ones with
changed replies, of which the second reading's board says what they are by trying all orders.
"""
import argparse
import hashlib
import sys
from pathlib import Path

from suite.history.report import report
from suite.history.search import MOST_STATES
from suite.history.trials import self_test
from suite.summary import Summary


def words_of(words: list[str]) -> argparse.Namespace:
    parser = argparse.ArgumentParser(prog="tests/run check-history", description=__doc__,
                                     formatter_class=argparse.RawDescriptionHelpFormatter)
    parser.add_argument("--order", action="store_true")
    parser.add_argument("--states", type=int, default=MOST_STATES, metavar="N")
    parser.add_argument("--module", type=Path, action="append", default=[], metavar="FILE")
    parser.add_argument("--self-test", action="store_true")
    parser.add_argument("words", nargs="+" if "--self-test" not in words else "*", metavar="SCRIPT")
    return parser.parse_args(words)


def main(given: list[str]) -> int:
    words = words_of(given)
    if words.self_test:
        count, seed = [*map(int, words.words), *[200, 1][len(words.words):]]
        faults, tried = self_test(count, seed)
        print(*faults, f"{len(faults)} faults: {', '.join(f'{number} {kind}' for kind, number in tried.items())}", sep="\n")
        return Summary("check-history", sum(tried.values()) - len(faults), len(faults)).end()
    try:
        files, scripts = ([Path(name).read_bytes() for name in names] for names in (words.module, words.words))
    except OSError as error:
        print(f"check-history: {error}", file=sys.stderr)
        return 2
    modules = {"sha256:" + hashlib.sha256(data).hexdigest(): data for data in files}
    found = report(scripts, sys.stdin.buffer.read(), modules, words.order, words.states)
    print(*found.lines, sep="\n")
    return {True: 0, False: 1, None: 2}[found.is_legal]
