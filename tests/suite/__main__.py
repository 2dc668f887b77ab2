"""tests/run COMMAND [WORDS..]: what is tested outside the gate.

tests/README.md says what each command shows, how long it takes and what it needs. Each has --help."""
from __future__ import annotations

import importlib
import sys

from suite.summary import COULD_NOT, NotRun, Summary

# Each command, with its module and what it shows in a line.
COMMANDS = {
    "all": ("run_all", "suites one after another, with one summary of all"),
    "check-ci": ("checks.run", "what the gate checks before any proof"),
    "manifest": ("checks.manifest", "the number of cases of each suite, compared or written"),
    "compare": ("compare", "the program, or both machines, beside a second reading of the standards"),
    "compare-text": ("compare_text", "the bytes that `asm` writes beside those of wat2wasm"),
    "compare-reasons": ("compare_reasons", "that --explain changes nothing but for a line, over broken files"),
    "compare-serve-reasons": ("compare_serve_reasons", "that --explain and --log change no reply of `serve`"),
    "serve-threads": ("serve_threads", "`serve` with workers and several callers"),
    "check-history": ("check_history", "whether what several callers were told is one history of one board"),
    "refuse-allocations": ("refuse_allocations", "the same output whatever allocation is refused"),
    "hostile": ("hostile", "hostile modules, texts and lines, with little memory and with none"),
    "dap-screenshot": ("dap_screenshot", "the picture of Emacs with the debugger, made anew"),
}


def main() -> int:
    words = sys.argv[1:]
    if not words or words[0] not in COMMANDS:
        is_asked = words[:1] in (["-h"], ["--help"])
        told = [f"  {name:22} {shows}" for name, (_, shows) in COMMANDS.items()]
        print(__doc__, "", *told, sep="\n", file=sys.stdout if is_asked else sys.stderr)
        return 0 if is_asked else COULD_NOT
    try:
        return int(importlib.import_module(f"suite.{COMMANDS[words[0]][0]}").main(words[1:]))
    except NotRun as lack:
        print(f"{words[0]}: not run: {lack}")
        print(Summary(words[0], not_run=1))
        return COULD_NOT


if __name__ == "__main__":
    sys.exit(main())
