#!/usr/bin/env python3
"""Measures how fast the programs of bench/corpus run, beside other engines, as bench/programs.py does, which says how.

    bench/corpus_race.py [PROGRAM] [--rounds N] [--half choosing|showing|both]

For each half that is asked for (both): a line for each of its programs, then the geometric mean and the worst of the ratios.
"""
import sys
import tempfile

from corpus import corpus
from programs import race
from shared import arguments


def halves() -> tuple[str, ...]:
    """The halves that the words ask for, which are taken from them."""
    words = sys.argv
    if "--half" not in words:
        return corpus.HALVES
    at = words.index("--half")
    half = words[at + 1]
    del words[at:at + 2]
    if half not in (*corpus.HALVES, "both"):
        sys.exit(f"there is no half {half}")
    return corpus.HALVES if half == "both" else (half,)


def main() -> None:
    asked = halves()
    program, rounds = arguments(3)
    with tempfile.TemporaryDirectory() as folder:
        for half in asked:
            print(f"the half for {half}:")
            race(program, ((one.name, *corpus.compiled(one, folder)) for one in corpus.programs(half)), rounds)


if __name__ == "__main__":
    main()
