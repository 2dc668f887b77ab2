"""Where a task is between two turns, read from the bytes of an `inspect`'s reply.

A search reads a hundred thousand replies a second, so they are not read as JSON: a reply has its keys in a fixed order, and
no spaces.
"""
from __future__ import annotations

import functools
import re
from typing import NamedTuple

from feulgama import requests
from feulgama.errors import BadReplyError

INNERMOST = re.compile(rb'\{"frames":\[(?:\{"func":(\d+),"labels":\[[\d,]*\],"locals":\[[^\]]*\],"next":(\d+))?')
COUNT = re.compile(rb'"n":(\d+),"ok":true\}$')


class Place(NamedTuple):
    """An instruction: the index of its function, and its number there."""
    func: int
    place: int

    def __str__(self) -> str:
        return f"{self.func}:{self.place}"


class Look(NamedTuple):
    """A task after `turn` turns: its next instruction, None once it has ended, and its number of frames. `line` is the
    reply that says so."""
    turn: int
    place: Place | None
    depth: int
    line: bytes


def look_of(line: bytes) -> Look:
    """The look of a reply to `inspect` that was accepted. Raises the RefusalError that it is, or BadReplyError."""
    innermost = INNERMOST.match(line)
    count = COUNT.search(line, len(line) - 40)
    if innermost is None or count is None:
        requests.inspect("").result(line)
        raise BadReplyError(line)
    func, next_ = innermost.groups()
    place = None if func is None else Place(int(func), int(next_))
    return Look(int(count[1]), place, line.count(b'"func":'), line)


@functools.lru_cache(maxsize=16)
def innermost_at(places: frozenset[Place]) -> re.Pattern[bytes]:
    """What matches the replies whose innermost frame is at one of these places."""
    by_func: dict[int, list[str]] = {}
    for place in places:
        by_func.setdefault(place.func, []).append(str(place.place))
    funcs = (rf'{func},"labels":\[[\d,]*\],"locals":\[[^\]]*\],"next":(?:{"|".join(numbers)}),'
             for func, numbers in by_func.items())
    return re.compile(rf'\{{"frames":\[\{{"func":(?:{"|".join(funcs)})'.encode())
