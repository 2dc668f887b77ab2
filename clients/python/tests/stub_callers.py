"""The callers of a program that stands for a shim in tests: lines come from each IN, and go to its OUT once answered."""
from __future__ import annotations

import os
import selectors
from collections.abc import Callable, Iterator


class Caller:
    """A caller by `--caller IN:OUT`: its name, and the number of its last line."""

    def __init__(self, pair: str) -> None:
        self.name, out = pair.split(":", 1)
        self.lines, self._out = os.open(self.name, os.O_RDONLY), os.open(out, os.O_WRONLY)
        self.count, self.rest = 0, b""

    def reply(self, data: bytes) -> None:
        while data:
            data = data[os.write(self._out, data):]


def callers_of(words: list[str]) -> list[Caller]:
    """The callers that the words of a command line name."""
    return [Caller(pair) for word, pair in zip(words, words[1:]) if word == "--caller"]


def lines_of(words: list[str], go_on: Callable[[], bool] = lambda: False) -> Iterator[tuple[Caller, bytes]]:
    """The lines of all callers as they come, without their line feeds, until the first caller's end. While none comes
    `go_on` is called as long as it says that there is more to do."""
    callers = callers_of(words)
    with selectors.DefaultSelector() as selector:
        for caller in callers:
            selector.register(caller.lines, selectors.EVENT_READ, caller)
        while True:
            for key, _ in selector.select(0 if go_on() else None):
                data = os.read(key.fd, 1 << 16)
                if not data and key.data is callers[0]:
                    return
                if not data:
                    selector.unregister(key.fd)
                *lines, key.data.rest = (key.data.rest + data).split(b"\n")
                for line in lines:
                    key.data.count += 1
                    yield key.data, line
