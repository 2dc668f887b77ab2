"""How the checks are told: a line for each, and one at the end."""
from __future__ import annotations

import time
import traceback
import unittest
from types import TracebackType
from typing import TextIO

Fault = tuple[type[BaseException], BaseException, TracebackType] | tuple[None, None, None]


class Report(unittest.TestResult):
    """Writes what becomes of each check at once."""

    def __init__(self, stream: TextIO) -> None:
        super().__init__()
        self.out = stream
        self.passed = 0
        self.failed = 0
        self.not_run = 0
        self.began = 0.0
        self.missing: set[str] = set()

    def add(self, other: Report) -> None:
        """Adds what another report has counted."""
        self.passed += other.passed
        self.failed += other.failed
        self.not_run += other.not_run
        self.missing |= other.missing

    def startTest(self, test: unittest.TestCase) -> None:
        super().startTest(test)
        self.began = time.monotonic()

    def tell(self, word: str, test: unittest.TestCase, more: str = "") -> None:
        """Writes the line of a check."""
        group = type(test).__name__
        name = test.shortDescription() or str(test)
        seconds = time.monotonic() - self.began if self.began else 0.0
        print(f"{word:7} {group}: {name} ({seconds:.1f} s){more}", file=self.out, flush=True)

    def addSuccess(self, test: unittest.TestCase) -> None:
        super().addSuccess(test)
        self.passed += 1
        self.tell("ok", test)

    def addSkip(self, test: unittest.TestCase, reason: str) -> None:
        super().addSkip(test, reason)
        self.not_run += 1
        words = reason.rpartition("missing: ")
        if words[1]:
            self.missing.update(words[2].split())
        self.tell("not run", test, f": {reason}")

    def addFailure(self, test: unittest.TestCase, err: Fault) -> None:
        super().addFailure(test, err)
        self.fault(test, err)

    def addError(self, test: unittest.TestCase, err: Fault) -> None:
        super().addError(test, err)
        self.fault(test, err)

    def fault(self, test: unittest.TestCase, err: Fault) -> None:
        """Tells a check that failed, with the reason."""
        self.failed += 1
        text = str(err[1] or "") if isinstance(err[1], AssertionError) else repr(err[1])
        frames = [frame for frame in traceback.extract_tb(err[2]) if "unittest" not in frame.filename]
        text = f"{frames[0].filename}, line {frames[0].lineno}\n{text}" if frames else text
        self.tell("FAILED", test, "\n        " + text.replace("\n", "\n        "))

    def summary(self) -> str:
        """The last lines."""
        line = f"{self.passed} passed, {self.failed} failed, {self.not_run} not run"
        if self.missing:
            line = f"To run all: apt-get install -y --no-install-recommends {' '.join(sorted(self.missing))}\n{line}"
        return line
