"""The rows that the gate runs, by the built program itself: the worked rows by `replay`, and the script of the program's own
crate by `serve`.

In the files of a row `<COUNT*TEXT>` is the text repeated that number of times.
"""
from __future__ import annotations

import subprocess
from pathlib import Path

import pytest

from suite.places import TOP, built
from suite.rows import part, spelled

pytestmark = pytest.mark.program
ROWS = TOP / "crates/test_inputs"
NAMES = part((ROWS / "stdin").read_text(), "rows")
SERVED = TOP / "crates/wasm_shim"


@pytest.mark.parametrize("name", NAMES)
def test_row(name: str, tmp_path: Path) -> None:
    script = tmp_path / "script"
    script.write_bytes(spelled((ROWS / f"data/{name}.jsonl").read_bytes()))
    done = subprocess.run([built(), "replay", script], stdin=subprocess.DEVNULL, capture_output=True, timeout=600, check=False)
    wanted = spelled((ROWS / f"data/{name}.expected").read_bytes())
    for number, (found, want) in enumerate(zip(done.stdout.splitlines(), wanted.splitlines()), 1):
        assert found == want, f"line {number} of {name}"
    assert (done.returncode, done.stdout) == (0, wanted)


def test_serve() -> None:
    words = (SERVED / "args").read_text().split()
    with (SERVED / "stdin").open("rb") as script:
        done = subprocess.run([built(), *words], stdin=script, capture_output=True, timeout=600, check=False)
    assert done.stdout == (SERVED / "stdout").read_bytes()
    assert done.returncode == 0


def test_each_row_has_its_files() -> None:
    stems = {path.stem for path in (ROWS / "data").iterdir()}
    assert sorted(stems) == sorted(NAMES)
    assert part((ROWS / "stdout").read_text(), "rows") == [f"ok {name}" for name in NAMES]
