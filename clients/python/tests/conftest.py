"""Options of pytest: the program that the tests run."""
from __future__ import annotations

import os
from pathlib import Path

import pytest

NEEDS = "needs the built program: name it by --program=FILE, or by the environment variable FEULGAMA_SHIM"


def pytest_addoption(parser: pytest.Parser) -> None:
    parser.addoption("--program", metavar="FILE", type=Path,
                     help="the program wasm-shim; without it the second reading of the standards is the shim")
    parser.addoption("--slow", action="store_true", help="run the tests with the mark slow, and no others")


def pytest_configure(config: pytest.Config) -> None:
    """Tells the tests which program it is, before they are read."""
    named = config.getoption("--program")
    if named is not None:
        os.environ["FEULGAMA_SHIM"] = str(named.resolve(strict=True))


def pytest_collection_modifyitems(config: pytest.Config, items: list[pytest.Item]) -> None:
    """Leaves out the slow tests, or the others; and passes over what the second reading cannot do."""
    left_out = [item for item in items if (item.get_closest_marker("slow") is not None) != config.getoption("--slow")]
    config.hook.pytest_deselected(items=left_out)
    items[:] = [item for item in items if item not in left_out]
    shim = os.environ.get("FEULGAMA_SHIM", "")
    if not shim or shim.endswith(".py"):
        for item in items:
            if item.get_closest_marker("program") is not None:
                item.add_marker(pytest.mark.skip(reason=NEEDS))
