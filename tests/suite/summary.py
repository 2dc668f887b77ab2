"""One way of counting, and one form of summary, for everything that is run outside the gate.

The last line that a suite prints is `NAME: N passed, M failed`, with `, K not run` if some of its cases were not. A case that
was not run is named before it, with the reason.
"""
from __future__ import annotations

import re
from dataclasses import dataclass

LINE = re.compile(r"(?P<name>[\w./-]+): (?P<passed>\d+) passed, (?P<failed>\d+) failed(?:, (?P<not_run>\d+) not run)?")
# The statuses of a suite: nothing failed, something did, and it could not be run.
PASSED, FAILED, COULD_NOT = 0, 1, 2


class NotRun(Exception):
    """What a suite needs is not there. The text says what is missing, and what brings it."""


@dataclass(frozen=True)
class Summary:
    """How many cases of a suite passed, failed and were not run."""
    name: str
    passed: int = 0
    failed: int = 0
    not_run: int = 0

    def __str__(self) -> str:
        told = f"{self.name}: {self.passed} passed, {self.failed} failed"
        return told + (f", {self.not_run} not run" if self.not_run else "")

    @property
    def status(self) -> int:
        return FAILED if self.failed else PASSED

    def end(self) -> int:
        """Prints the summary, and gives the status that the suite ends with."""
        print(self, flush=True)
        return self.status


def read(line: str) -> Summary | None:
    """The summary that a line is, if it is one."""
    match = LINE.fullmatch(line.strip())
    return Summary(match["name"], int(match["passed"]), int(match["failed"]), int(match["not_run"] or 0)) if match else None
