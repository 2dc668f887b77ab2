#!/usr/bin/env python3
"""Programs that are no shim, each by a word in the environment variable BROKEN, for tests of what a client makes of them."""
import os
import sys
import time
from pathlib import Path

sys.path.insert(0, str(Path(__file__).resolve().parents[1]))

from tests.stub_callers import callers_of  # noqa: E402


def main() -> int:
    caller = callers_of(sys.argv)[0]
    line = os.read(caller.lines, 1000)
    match os.environ["BROKEN"]:
        case "ends":
            print("wasm-shim: out of memory", file=sys.stderr)
            return 1
        case "half":
            caller.reply(b'{"ok":tr')
        case "words":
            caller.reply(b"hello\n")
        case "list":
            caller.reply(b"[1]\n")
        case "bare":
            caller.reply(b"{}\n")
        case "keys":
            caller.reply(b'{"ok":true}\n')
        case "two":
            caller.reply(b'{"ok":true,"removed":[]}\n{"ok":true,"removed":[]}\n')
        case "closes":
            os.closerange(3, 1000)
            time.sleep(60)
        case "new":
            caller.reply(b'{"error":"Odd","number":99,"ok":false}\n')
            os.read(caller.lines, 1000)
    return len(line) == 0


if __name__ == "__main__":
    sys.exit(main())
