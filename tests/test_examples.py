"""The scripts, texts and commands of examples/: what the built program answers is what is stored beside each.

A script whose name ends in .replay is run by replay, any other by serve; one with reasons beside it, in a file NAME.why, is
also served with --explain: the replies stay, and standard error has these. A module that is a text is run, and so is each
line of commands.txt as the words of a command: both streams and the status are compared. All but the scripts with reasons
have 64 MiB of address space: nothing is allocated for a count that bytes only declare.
"""
from __future__ import annotations

import resource
import subprocess
from pathlib import Path

import pytest

from suite.places import EXAMPLES, built

pytestmark = pytest.mark.program
MEMORY = 64 * 1024 * 1024


def limit() -> None:
    resource.setrlimit(resource.RLIMIT_AS, (MEMORY, MEMORY))


def run(words: list[str], script: Path = Path("/dev/null"), is_limited: bool = True) -> subprocess.CompletedProcess[bytes]:
    """Runs the program under its own name in examples/, with a script as its input."""
    with script.open("rb") as file:
        return subprocess.run(["wasm-shim", *words], executable=built(), cwd=EXAMPLES, stdin=file, capture_output=True,
                              timeout=300, preexec_fn=limit if is_limited else None, check=False)


def told(words: list[str]) -> bytes:
    """What the program writes with these words to its two streams, and its status."""
    done = run(words)
    lines = [kind + line for kind, stream in ((b"out: ", done.stdout), (b"err: ", done.stderr))
             for line in stream.splitlines(keepends=True)]
    return b"".join([*lines, f"status: {done.returncode}\n".encode()])


def commands() -> list[tuple[str, bytes]]:
    """The commands of commands.txt, each with what is stored for it."""
    lines = (EXAMPLES / "commands.txt").read_text().splitlines()
    stored = (EXAMPLES / "commands.expected").read_bytes()
    found = []
    for line, following in zip(lines, [*lines[1:], None]):
        head = f"wasm-shim {line}\n".encode()
        assert stored.startswith(head), f"commands.expected lacks `{line}`"
        end = len(stored) if following is None else stored.index(f"\nwasm-shim {following}\n".encode()) + 1
        found.append((line, stored[len(head):end]))
        stored = stored[end:]
    return found


@pytest.mark.parametrize("name", sorted(path.stem for path in EXAMPLES.glob("*.jsonl")))
def test_script(name: str) -> None:
    script = EXAMPLES / f"{name}.jsonl"
    words = ["replay", script.name] if name.endswith(".replay") else ["serve"]
    assert run(words, script).stdout == (EXAMPLES / f"{name}.expected").read_bytes()


@pytest.mark.parametrize("name", sorted(path.stem for path in EXAMPLES.glob("*.why")))
def test_script_with_reasons(name: str) -> None:
    done = run(["serve", "--explain"], EXAMPLES / f"{name}.jsonl", is_limited=False)
    assert done.stdout == (EXAMPLES / f"{name}.expected").read_bytes()
    assert done.stderr == (EXAMPLES / f"{name}.why").read_bytes()


@pytest.mark.parametrize("name", sorted(path.name for path in EXAMPLES.glob("*.wat")))
def test_text(name: str) -> None:
    assert told(["run", name]) == (EXAMPLES / f"{name}.expected").read_bytes()


@pytest.mark.parametrize("number", range(len((EXAMPLES / "commands.txt").read_text().splitlines())))
def test_command(number: int) -> None:
    line, stored = commands()[number]
    assert told(line.split()) == stored


def test_a_file_may_have_as_many_bytes_as_a_module(tmp_path: Path) -> None:
    """One byte more is refused, whatever the others are. Here they are a custom section after the preamble."""
    file, module = tmp_path / "largest.wasm", b"\0asm\1\0\0\0\0\xf4\xff\x0f" + bytes(262_132)
    for more, wanted in ((b"", b"out: ok\nstatus: 0\n"), (b"\0", b"err: refused 9 Limit\nstatus: 3\n")):
        file.write_bytes(module + more)
        assert told(["check", str(file)]) == wanted


def test_asm_writes_a_file(tmp_path: Path) -> None:
    """The bytes of `asm -o` are those whose digits `asm` writes; a refused module leaves the file as it is."""
    file = tmp_path / "sum.wasm"
    digits = run(["asm", "sum.wat"])
    done = run(["asm", "-o", str(file), "sum.wat"])
    assert (done.returncode, done.stdout, done.stderr) == (0, b"", b"")
    assert file.read_bytes() == bytes.fromhex(digits.stdout.decode())
    refused = run(["asm", "--output", str(file), "commands.txt"])
    assert (refused.returncode, refused.stdout) == (3, b"") and refused.stderr.startswith(b"refused 18 BadText")
    assert file.read_bytes() == bytes.fromhex(digits.stdout.decode())
    nowhere = run(["asm", "-o", str(tmp_path / "nowhere/sum.wasm"), "sum.wat"])
    assert (nowhere.returncode, nowhere.stdout) == (1, b"") and b"nowhere/sum.wasm: " in nowhere.stderr


@pytest.mark.parametrize("words", [
    ["asm", "sum.wat"], ["check", "sum.wat"], ["check", "--list", "sum.wat"], ["check", "--task", "sum.wat"],
    ["run", "hello.wat"], ["--version"]])
def test_a_full_output_is_a_stream_that_fails(words: list[str]) -> None:
    """docs/COMMANDS.md: the status is 1, and a line on standard error says why."""
    with open("/dev/full", "wb") as full:
        done = subprocess.run(["wasm-shim", *words], executable=built(), cwd=EXAMPLES, stdin=subprocess.DEVNULL, stdout=full,
                              stderr=subprocess.PIPE, timeout=300, check=False)
    assert done.returncode == 1
    assert done.stderr.startswith(b"wasm-shim: standard output: ") and done.stderr.count(b"\n") == 1


@pytest.mark.parametrize("words, status", [(["asm"], 3), (["check"], 3), (["run"], 125)])
def test_a_binary_file_without_end_is_refused(words: list[str], status: int) -> None:
    """docs/COMMANDS.md: of a binary no more than 262,145 bytes are read."""
    assert told([*words, "/dev/zero"]) == f"err: refused 9 Limit\nstatus: {status}\n".encode()
