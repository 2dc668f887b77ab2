"""A plugin of pytest: its last line is a summary in the form of tests/suite/summary.py, under the name that the environment
variable SUITE has. A test that raises NotRun, or whose fixture does, is not run, with the reason."""
from __future__ import annotations

import os
from collections.abc import Generator
from typing import Any

import pytest

from suite.summary import NotRun, Summary


@pytest.hookimpl(hookwrapper=True)
def pytest_runtest_makereport(item: pytest.Item, call: pytest.CallInfo[None]) -> Generator[None, Any, None]:
    """Makes a skip of what could not be run."""
    outcome = yield
    if call.excinfo is not None and isinstance(call.excinfo.value, NotRun):
        report = outcome.get_result()
        path, line, _ = item.location
        report.outcome, report.longrepr = "skipped", (path, line or 0, f"not run: {call.excinfo.value}")


@pytest.hookimpl(trylast=True)
def pytest_unconfigure(config: pytest.Config) -> None:
    """Prints the summary after all else."""
    reporter = config.pluginmanager.get_plugin("terminalreporter")
    if reporter is None:
        return
    count = {kind: len(found) for kind, found in reporter.stats.items()}
    failed = sum(count.get(kind, 0) for kind in ("failed", "error", "xpassed"))
    passed = count.get("passed", 0) + count.get("xfailed", 0)
    print(Summary(os.environ.get("SUITE", "tests"), passed, failed, count.get("skipped", 0)))
