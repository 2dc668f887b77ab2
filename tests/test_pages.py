"""The commands of the pages, run as they are written there, in a folder that looks like a clone of the repository; and the
session and the replay of the protocol's page.

A comment is before each block of a page: `<!-- run -->`, or `<!-- not run: WHY -->`. The blocks of a page that are run share
one shell. In them `$ ` begins a command, and the lines below it are what it writes. A line `...` stands for any lines, and
`...` in a line for anything in it. What follows `(feulgama) ` is typed to the command that is running."""
from __future__ import annotations

import os
import re
import shlex
import shutil
import subprocess
from dataclasses import dataclass
from pathlib import Path

import pytest

from suite.places import CLIENT, EXAMPLES, TOP, built, need
from suite.summary import NotRun

PAGES = ("README.md", "docs/TOUR.md", "docs/COMMANDS.md", "docs/OPERATIONS.md")
# Its blocks name the host that has to be there. `make check-containers` runs them.
HOSTS = ("docs/CONTAINERS.md", ("setup", "podman", "docker", "containerd", "shim"))
FENCE = re.compile(r"(?P<before>[^\n]*)\n```(?P<kind>\w*)\n(?P<lines>.*?)^```$", re.DOTALL | re.MULTILINE)
MARK = re.compile(r"<!-- not run: \S.* -->")
PROMPT = "(feulgama) "
# What the debugger says each two seconds of a search. A page has no such line, but a busy machine has.
PROGRESS = re.compile(r"^looking for writes since \d+ seconds; Ctrl-C breaks it off\n", re.MULTILINE)
LIBRARY = Path("/usr/lib/wasm32-wasi/libc.a")
NEEDS = {"docs/COMMANDS.md": {"xxd": "xxd", "clang-14": "clang-14", "wasm-ld-14": "lld-14"}}
# For all commands of a page.
SECONDS = 300


@dataclass(frozen=True)
class Command:
    """A command of a page, with the lines below it."""
    words: str
    lines: str

    @property
    def typed(self) -> str:
        return "".join(line.removeprefix(PROMPT) for line in self.lines.splitlines(keepends=True) if line.startswith(PROMPT))

    def is_told(self, written: str) -> bool:
        """Whether this is what the page says that the command writes, but for how long it took."""
        text = re.escape(in_order(self.lines)).replace(re.escape("...\n"), "(?s:.*)").replace(re.escape("..."), ".*")
        return re.fullmatch(text, in_order(PROGRESS.sub("", written))) is not None


def in_order(text: str) -> str:
    """The lines of a log by what they say, since several threads write them; any other text as it is."""
    lines = text.splitlines(keepends=True)
    is_log = all(line.startswith("log: ") for line in lines)
    return "".join(sorted(lines, key=lambda line: line.split(" ", 3)[3:])) if is_log else text


def blocks(text: str) -> list[tuple[str, str]]:
    """The line before each block of a page, and the lines in it."""
    return [(match["before"], match["lines"]) for match in FENCE.finditer(text)]


def commands(text: str) -> list[Command]:
    """The commands of a page that are run. One goes on in the next line after a backslash."""
    parts = [part for before, lines in blocks(text) if before == "<!-- run -->"
             for part in re.split(r"^\$ ", lines, flags=re.MULTILINE)[1:]]
    found = [re.fullmatch(r"((?:[^\n]*\\\n)*[^\n]*)\n(.*)", part, re.DOTALL) for part in parts]
    return [Command(*match.groups()) for match in found if match]


def script(folder: Path, page: list[Command]) -> str:
    """A program of the shell, which writes what each command writes into a file of its own."""
    lines = ["shopt -s expand_aliases"]
    for number, command in enumerate(page):
        typed, said = folder / f"typed.{number}", folder / f"said.{number}"
        typed.write_text(command.typed)
        lines.append(f"{{ {command.words}\n}} < {shlex.quote(str(typed))} > {shlex.quote(str(said))} 2>&1")
    return "\n".join([*lines, ""])


def put_program(path: Path, program: Path) -> None:
    """Puts a command there that is the built program."""
    path.write_text(f'#!/bin/bash\nexec -a wasm-shim {shlex.quote(str(program))} "$@"\n')
    path.chmod(0o755)


def clone(folder: Path, program: Path) -> None:
    """Makes a folder look like a clone with a built program. The examples are copied, so that no command spoils them."""
    for part in ("bin", "tools", "clients"):
        (folder / part).mkdir(parents=True)
    shutil.copytree(EXAMPLES, folder / "examples")
    (folder / "clients/python").symlink_to(CLIENT)
    (folder / "bin/feulgama").symlink_to(CLIENT / "bin/feulgama")
    put_program(folder / "tools/shim", program)
    put_program(folder / "bin/wasm-shim", program)


@pytest.mark.parametrize("name", (*PAGES, HOSTS[0]))
def test_each_block_says_whether_it_is_run(name: str) -> None:
    text = (TOP / name).read_text()
    found = blocks(text)
    assert len(found) == len(re.findall("^```", text, re.MULTILINE)) // 2 > 0
    runs = {"<!-- run -->"} if name in PAGES else {f"<!-- run: {host} -->" for host in HOSTS[1]}
    unmarked = [lines for before, lines in found if before not in runs and not MARK.fullmatch(before)]
    assert not unmarked, f"{name}: no comment `run` or `not run: WHY` before\n{unmarked[0]}"
    assert runs <= {before for before, _ in found}
    strange = [lines for before, lines in found if before in runs and not lines.startswith("$ ")]
    assert not strange, f"{name}: does not begin with `$ `\n{strange[0]}"


def test_a_difference_is_seen() -> None:
    run = "<!-- run -->\n```console\n$ a \\\n  b\none ... three\n...\nlast\n$ c\n```\n"
    text = f"{run}\n<!-- not run: why -->\n```console\n$ d\n```\n"
    first, second = commands(text)
    assert (first.words, second) == ("a \\\n  b", Command("c", ""))
    assert first.is_told("one two three\nlast\n") and first.is_told("one 2 three\nmore\nand more\nlast\n")
    log = Command("e", "log: ...Z ... worker ended\nlog: ...Z ... caller-ended\n")
    assert log.is_told("log: 1Z 0.1 caller-ended\nlog: 2Z 0.2 worker ended\n")
    assert not log.is_told("log: 1Z 0.1 caller-ended\n")
    assert first.is_told("one two three\nlooking for writes since 3 seconds; Ctrl-C breaks it off\nlast\n")
    assert second.is_told("looking for writes since 3 seconds; Ctrl-C breaks it off\n" * 2)
    for written in ("one two three\n", "one two three\nlast", "one two four\nlast\n", "one\ntwo three\nlast\n", ""):
        assert not first.is_told(written)
    assert not second.is_told("more\n")


@pytest.mark.program
@pytest.mark.parametrize("name", PAGES)
def test_commands(name: str, tmp_path: Path) -> None:
    program = built()
    need(NEEDS.get(name, {}))
    if name in NEEDS and not LIBRARY.exists():
        raise NotRun("packages are missing: apt-get install -y --no-install-recommends wasi-libc libclang-rt-14-dev-wasm32")
    page = commands((TOP / name).read_text())
    assert page
    top, said = tmp_path / "clone", tmp_path / "said"
    said.mkdir()
    clone(top, program)
    (tmp_path / "script").write_text(script(said, page))
    more = {"PATH": f"{top}/bin:{os.environ['PATH']}", "FEULGAMA_SHIM": str(program), "LC_ALL": "C.UTF-8"}
    # If its time is over, `timeout` also ends what the shell has started.
    ran = subprocess.run(["timeout", str(SECONDS), "bash", "--norc", tmp_path / "script"], cwd=top, env={**os.environ, **more},
                         stdin=subprocess.DEVNULL, capture_output=True, text=True, check=False)
    assert (ran.stdout, ran.stderr) == ("", "")
    for number, command in enumerate(page):
        output = said / f"said.{number}"
        assert output.exists(), f"{name}: {command.words}\nwas not reached in {SECONDS} seconds"
        written = output.read_text()
        assert command.is_told(written), f"{name}: {command.words}\nwrites\n{written}\nand the page has\n{command.lines}"


@pytest.mark.program
def test_the_session_and_the_replay_of_the_protocol(tmp_path: Path) -> None:
    """They are exact: the replay begins with the first two lines of the session."""
    text = (TOP / "docs/PROTOCOL.md").read_text()
    asked, said = (lines for _, lines in blocks(text.partition("## A session\n")[2])[:2])
    more, answers = (lines for _, lines in blocks(text.partition("The rest of a replay")[2])[:2])
    ran = subprocess.run([built(), "serve"], input=asked, capture_output=True, text=True, check=True, timeout=SECONDS)
    assert (ran.stdout, ran.stderr) == (said, "")
    events = tmp_path / "events"
    events.write_text("".join(asked.splitlines(keepends=True)[:2]) + more)
    ran = subprocess.run([built(), "replay", events], capture_output=True, text=True, check=True, timeout=SECONDS)
    assert (ran.stdout, ran.stderr) == ("".join(said.splitlines(keepends=True)[:2]) + answers, "")
