"""How suites are counted and run, and the suites that need no built program."""
from __future__ import annotations

import os
import random
import re
import subprocess
import sys
from pathlib import Path

import pytest

from suite import places, run_all
from suite.__main__ import COMMANDS
from suite.checks.tree import TOP, Tree
from suite.reference import superinstructions, wasm
from suite.reference.execute import Machine
from suite.summary import NotRun, Summary, read
from suite.trials import growth, memory, program, scripts


def run(*words: str, **more: str) -> subprocess.CompletedProcess[str]:
    return subprocess.run([TOP / "tests/run", *words], env={**os.environ, "PYTHON": sys.executable, **more},
                          capture_output=True, text=True, stdin=subprocess.DEVNULL, timeout=300, check=False)


@pytest.mark.parametrize("summary", [Summary("a", 3), Summary("compare-both", 0, 2), Summary("clients/python", 1, 2, 3)])
def test_summary_is_read_again(summary: Summary) -> None:
    assert read(f"{summary}\n") == summary
    assert summary.status == (1 if summary.failed else 0)


@pytest.mark.parametrize("line", ["", "3 passed, 0 failed", "a: 3 passed", "a: 3 passed, 0 failed and more"])
def test_other_lines_are_no_summary(line: str) -> None:
    assert read(line) is None


@pytest.mark.parametrize("name", COMMANDS)
def test_help(name: str) -> None:
    done = run(name, "--help")
    assert (done.returncode, done.stderr) == (0, "")
    assert f"tests/run {name}" in done.stdout


def test_each_command_is_listed() -> None:
    done = run("--help")
    assert done.returncode == 0 and all(f"  {name} " in done.stdout for name in COMMANDS)
    assert run("no-such-command").returncode == run().returncode == 2


def test_each_suite_is_there() -> None:
    files = {word for suite in run_all.SUITES if suite.folder == TOP for word in suite.command if word.endswith(".py")}
    assert sorted(files) == Tree(TOP).matching("tests/test_*.py")
    commands = {suite.name.split()[0] for suite in run_all.SUITES} & COMMANDS.keys()
    assert COMMANDS.keys() - commands == {"all", "check-ci", "manifest", "dap-screenshot"}


def targets() -> set[str]:
    """The targets of the Makefile, without those of suites."""
    return set(re.findall(r"^([a-z-]+):", (TOP / "Makefile").read_text(), re.MULTILINE))


def test_each_suite_is_a_target() -> None:
    listed = re.search(r"^SUITES = ((?:.*\\\n)*.*)$", (TOP / "Makefile").read_text(), re.MULTILINE)
    assert listed is not None
    assert sorted(listed[1].replace("\\", "").split()) == sorted({suite.name.split()[0] for suite in run_all.SUITES})


def test_each_target_that_a_page_names_is_there() -> None:
    suites = {suite.name.split()[0] for suite in run_all.SUITES}
    commands = {(page, command) for page in Tree(TOP).matching("*.md")
                for command in re.findall(r"`make ([a-z][^`]*)`", Tree(TOP).text(page))}
    named = {(page, word) for page, command in commands for word in command.split() if "=" not in word}
    assert {"gate", "check-ci", "check-history"} <= {word for _, word in named}
    assert [one for one in sorted(named) if one[1] not in targets() | suites] == []


@pytest.mark.parametrize("name", ["compare", "compare-text", "compare-serve-reasons", "serve-threads", "hostile"])
def test_what_has_no_program_is_not_run(name: str) -> None:
    done = run(name, PROGRAM="/no/such/program")
    assert done.returncode == 2
    assert done.stdout.splitlines()[-1] == f"{name}: 0 passed, 0 failed, 1 not run"
    assert "/no/such/program is not there: build it (make build)" in done.stdout or "apt-get install" in done.stdout


def test_a_missing_package_is_named() -> None:
    with pytest.raises(NotRun, match="apt-get install -y --no-install-recommends one two$"):
        places.need({"no-such-command": "two", "no-such-command-either": "one", "sh": "dash"})


def packages_of(text: str) -> set[str]:
    """The Debian packages that a file of tests says that it needs."""
    said = re.findall(r"apt-get install (?:-y --no-install-recommends )?((?:[a-z][a-z0-9.+-]* ?)+)", text)
    said += re.findall(r'"[\w+-]+": "([a-z][a-z0-9.+ -]*)"', "".join(re.findall(r"need\(\{[^}]*\}", text)))
    said += re.findall(r'^NEEDED\w* = "(clang[a-z0-9.+ -]*)"', text, re.MULTILINE)
    return {word for words in said for word in words.split()}


def test_each_package_that_a_test_needs_is_listed() -> None:
    """But for those of a picture, which has to be looked at."""
    tree = Tree(TOP)
    lines = "\n".join(tree.text(name) for name in (".ci/packages", "tests/packages")).splitlines()
    listed = [line for line in lines if not line.startswith("#")]
    assert listed and len(listed) == len(set(listed))
    left_out = {"tests/test_suites.py", "tests/test_checks.py", "tests/test_gate.py", "tests/suite/dap_screenshot.py"}
    files = {*tree.matching("tests/*.py"), *tree.matching("clients/python/tests/*.py")} - left_out
    needed = {package for name in files for package in packages_of(tree.text(name))}
    assert {"wabt", "gcc", "wasi-libc", "clang-22", "python3-venv", "emscripten", "nodejs", "elpa-dap-mode"} <= needed
    assert sorted(needed - set(listed)) == []


def suite_of(name: str, code: str, folder: Path) -> run_all.Suite:
    return run_all.Suite(name, (sys.executable, "-c", code), True, folder)


@pytest.mark.parametrize(("code", "wanted"), [
    ("print('x: 4 passed, 0 failed')", Summary("s", 4)),
    ("print('x: 4 passed, 1 failed'); exit(1)", Summary("s", 4, 1)),
    ("print('x: 0 passed, 0 failed, 1 not run'); exit(2)", Summary("s", 0, 0, 1)),
    ("print('no summary')", Summary("s", 0, 1)),
    ("print('x: 4 passed, 0 failed'); exit(1)", Summary("s", 0, 1)),
    ("print('x: 0 passed, 1 failed'); exit(2)", Summary("s", 0, 1)),
    ("print('x: 4 passed, 0 failed, 1 not run'); exit(2)", Summary("s", 0, 1)),
    ("raise SystemExit(3)", Summary("s", 0, 1))])
def test_what_a_suite_prints_is_counted(code: str, wanted: Summary, tmp_path: Path) -> None:
    assert run_all.run(suite_of("s", code, tmp_path)) == wanted


def test_what_needs_the_program_is_not_run_without(tmp_path: Path, monkeypatch: pytest.MonkeyPatch) -> None:
    monkeypatch.setenv("PROGRAM", "/no/such/program")
    suite = run_all.Suite("s", ("false",), folder=tmp_path, needs_program=True)
    assert run_all.run(suite) == Summary("s", 0, 0, 1)


def test_all_is_the_sum(tmp_path: Path, monkeypatch: pytest.MonkeyPatch, capsys: pytest.CaptureFixture[str]) -> None:
    monkeypatch.setattr(run_all, "SUITES", [suite_of("good", "print('x: 4 passed, 0 failed, 2 not run')", tmp_path),
                                            suite_of("bad", "print('x: 1 passed, 1 failed'); exit(1)", tmp_path)])
    assert run_all.main([]) == 1
    assert capsys.readouterr().out.splitlines()[-1] == "all: 5 passed, 1 failed, 2 not run"
    assert run_all.main(["good"]) == 0
    with pytest.raises(SystemExit):
        run_all.main(["ugly"])


TESTS = """
import pytest
from suite.summary import NotRun

def test_good() -> None:
    pass

def test_bad() -> None:
    assert False

@pytest.fixture
def lacking() -> None:
    raise NotRun("needs a package")

def test_lacks(lacking: None) -> None:
    pass

def test_lacks_too() -> None:
    raise NotRun("needs another")
"""


def test_tests_are_counted(tmp_path: Path) -> None:
    (tmp_path / "test_some.py").write_text(TESTS)
    done = subprocess.run([*run_all.PYTEST, "test_some.py"], cwd=tmp_path, capture_output=True, text=True, check=False,
                          env={**os.environ, "PYTHONPATH": str(TOP / "tests"), "SUITE": "some"})
    assert done.stdout.splitlines()[-1] == "some: 1 passed, 1 failed, 2 not run"
    assert "needs a package" in done.stdout and "needs another" in done.stdout


def test_second_reading_answers_itself() -> None:
    done = run("compare", "--dry", "1", "1")
    assert done.returncode == 0, done.stderr
    assert done.stdout.splitlines()[-2:] == ["nothing was compared", "compare-dry: 0 passed, 0 failed"]
    assert "60 modules" in done.stdout


def test_checker_of_histories() -> None:
    done = run("check-history", "--self-test", "20", "1")
    assert done.returncode == 0, done.stdout
    assert done.stdout.splitlines()[-1] == "check-history: 92 passed, 0 failed"


@pytest.mark.parametrize("later,faults", [(0.9, 0), (1.1, 1)])
def test_what_is_too_slow_is_timed_again(later: float, faults: int, monkeypatch: pytest.MonkeyPatch) -> None:
    """It is told only if it is so each time."""
    asked: list[int] = []

    def timed(_program: Path, trial: growth.Trial, _environment: dict[str, str] | None = None) -> growth.Timing:
        asked.append(trial.size)
        part = 2.0 if len(asked) <= 3 else later
        return growth.Timing(trial.size, growth.MOST_SECONDS * part * trial.size / growth.BYTES, b'{"ok":true}', 1.0)

    monkeypatch.setattr(growth, "timed", timed)
    monkeypatch.setattr(growth, "PAUSES", (0, 0))
    report, sizes = program.Report("growth"), growth.sizes(growth.BYTES)
    growth.try_shape(Path("no-program"), report, "a shape", [growth.of_line(b" " * size) for size in sizes], [0] * 3)
    assert len(report.faults) == faults
    assert asked == sizes * (3 if faults else 2)


def test_history_that_is_legal_or_not(tmp_path: Path) -> None:
    script = tmp_path / "script"
    script.write_text('{"op":"state","id":"x"}\n')
    for reply, status in (('{"error":"NotFound","number":4,"ok":false}', 0),
                          ('{"id":"x","n":0,"ok":true,"status":"created"}', 1)):
        done = subprocess.run([TOP / "tests/run", "check-history", script], input=f"{reply}\n", capture_output=True, text=True,
                              check=False)
        assert done.returncode == status, done.stdout


def test_each_superinstruction_is_a_row() -> None:
    numbers = re.findall(r"^ *(\d+): ", superinstructions.TABLE.read_text(), re.MULTILINE)
    assert [*map(int, numbers)] == [*range(len(superinstructions.rows()))] != []
    assert {name for row in superinstructions.rows() for name in row} <= superinstructions.TAKES.keys()


def test_programs_of_superinstructions_end_in_each_way() -> None:
    random.seed(1)
    ends = set()
    for _ in range(60):
        data = superinstructions.program()
        assert [*wasm.refusals_of(data)] == []
        machine = Machine(wasm.Decoder(data).module())
        machine.run(2000)
        ends |= {machine.end.get("trap", machine.end["cause"])} if machine.end else {"none"}
    assert ends >= {"exit", "out of bounds memory access", "none"}


@pytest.mark.parametrize("told", [program.OUT_OF_MEMORY, memory.NO_THREAD])
def test_words_of_an_end_are_those_of_the_program(told: bytes) -> None:
    """docs/COMMANDS.md says that the program then ends with status 1, and a line says why."""
    cause = re.fullmatch(r"wasm-shim: (.+)\n", told.decode())
    assert cause and f'"{cause[1]}"' in (TOP / "crates/serve_command/src/said.rt").read_text()


def test_another_end_is_a_fault() -> None:
    talk = scripts.Talk(place=0, asked=1)
    for told, status, is_right in ((program.OUT_OF_MEMORY, 1, True), (memory.NO_THREAD, 1, True), (memory.NO_THREAD, 0, False),
                                   (b"wasm-shim: no seat is left\n", 1, False), (b"", 1, False)):
        report = program.Report("limits")
        memory.end_of(report, "serve", [b"{}"], talk, status, told)
        assert (not report.faults) == is_right
        assert report.counts["scripts for which no worker could be started"] == (told == memory.NO_THREAD)
