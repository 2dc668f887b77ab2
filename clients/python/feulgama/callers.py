"""The pipes of a shim's callers: it has one to control it, and others that wait for tasks, each with two pipes."""
from __future__ import annotations

import os
import time
from collections.abc import Sequence
from dataclasses import dataclass

from feulgama.errors import NoShimError

MOST_WAITERS = 129  # a shim has at most 130 callers
FIRST_PAUSE, SHARE = 1.0, 8


@dataclass(frozen=True, slots=True)
class Ends:
    """This side's ends of a caller's pipes: lines are written, replies are read. `name` is what the shim calls it."""
    name: str
    lines: int
    replies: int


@dataclass(frozen=True, slots=True)
class Pipes:
    """The pipes of some callers, and the other side's ends of them."""
    ends: list[Ends]
    given: list[int]

    def words(self) -> list[str]:
        """The words that tell a shim of its callers."""
        pairs = zip(self.given[::2], self.given[1::2])
        return [word for lines, replies in pairs for word in ("--caller", f"/dev/fd/{lines}:/dev/fd/{replies}")]

    def close_given(self) -> None:
        """Closes the ends that the shim has inherited, or the readers of these pipes would never see an end."""
        close(self.given)

    def close(self) -> None:
        """Closes all ends."""
        close([*self.given, *(end for ends in self.ends for end in (ends.lines, ends.replies))])


def pipes(waiters: int, user: int | None = None) -> Pipes:
    """The pipes of a caller to control a shim, and of so many that wait. A shim opens its pipes by name, so they belong to
    the user that it runs as, if that is another."""
    if not 1 <= waiters <= MOST_WAITERS:
        raise NoShimError(f"a shim has from 1 to {MOST_WAITERS} callers that wait, and not {waiters}")
    made: list[int] = []
    try:
        for _ in range(2 * (1 + waiters)):
            made += os.pipe()
            if user is not None:
                os.fchown(made[-1], user, -1)
    except OSError as error:
        close(made)
        raise NoShimError(f"no pipes for {1 + waiters} callers: {error.strerror}") from error
    found, given = [], []
    for at in range(0, len(made), 4):
        theirs, lines, replies, its = made[at:at + 4]
        os.set_blocking(lines, False)
        given += [theirs, its]
        found.append(Ends(f"/dev/fd/{theirs}", lines, replies))
    return Pipes(found, given)


def close(descriptors: Sequence[int]) -> None:
    """Closes some descriptors."""
    for descriptor in descriptors:
        os.close(descriptor)


def pause(begin: float, until: float = float("inf")) -> float:
    """How many seconds a wait for which no caller is free sleeps before it asks for the state: the longer it has waited, the
    more, since the requests of a shim are counted. `begin` and `until` are moments of the monotonic clock, and it does not
    sleep beyond `until`."""
    now = time.monotonic()
    return max(0.0, min(max(FIRST_PAUSE, (now - begin) / SHARE), until - now))
