"""Each check of check-ci finds its fault in a small tree, and finds none in the same tree without it."""
from __future__ import annotations

import subprocess
from collections.abc import Callable
from pathlib import Path

import pytest

from suite.checks import (
    edits, layout, links, listed_calls, manifest, memory_words, named_code, programs, run, versions)
from suite.checks.tree import Tree

# A repository in which nothing is wrong.
FILES: dict[str, str] = {
    "crates/file_commands/src/command.rt": 'const VERSION: &str = "0.2.0";\n\nfn whole() -> Result<u8, AllocError> {\n'
                                           "    one_more(2).ok_or(AllocError)\n}\n",
    "crates/file_commands/must-fail/less.edit": "file: src/command.rt\nold: one_more(2)\nnew: one_more(1)\n",
    "crates/file_commands/attacks/more.edit": "file: src/command.rt\nold: one_more(2)\nnew: two_more(2)\n"
                                              "old: two_more(2)\nnew: two_more(1)\n",
    "tests/memory_words.txt": "# An impossible case is answered so.\n"
                              "crates/file_commands/src/command.rt whole 1 one_more(2).ok_or(AllocError)\n",
    "crates/callers/src/hands.rt": "const ROOM: usize = 2;\n\nfn end(alloc: Global, task: Runnable) {\n"
                                   "    let all = Vec::with_capacity(alloc, ROOM)?;\n    all.push(task.into_ticket());\n}\n",
    "tests/listed_calls.txt": "# A list holds the tasks from here on.\n"
                              "crates/callers/src/hands.rt end 1 all.push(task.into_ticket());\n"
                              "crates/callers/src/hands.rt end 1 let all = Vec::with_capacity(alloc, ROOM)?;\n"
                              "crates/callers/src/hands.rt ROOM 1 const ROOM: usize = 2;\n",
    "tests/manifest.txt": "crates/file_commands/*.edit 2 files  # rt ci\ntests/test_one.py 1 tests  # check-ci\n",
    "tests/test_one.py": "def test_one() -> None:\n    assert True\n",
    "CHANGELOG.md": "# Changelog\n\n## [Unreleased]\n\n## [0.2.0] - 2026-01-01\n\n## 0.1.0\n\nNow `wasm-shim 0.1.0`.\n",
    "README.md": "# A [name](docs/A.md#two-words) and `tests/test_one.py`\n\nSee [this](#a-name-and-teststest_onepy).\n",
    "docs/Map.md": "# Map\n\n| Question | File | Functions |\n|---|---|---|\n"
                   "| what is one more? | `file_commands/src/command.rt` | `whole`, `Command::whole` |\n\n"
                   "| Crate | Where to look first |\n|---|---|\n| `file_commands` | `src/command.rt` |\n\n"
                   "See `file_commands/src/*.rt` and `file_commands/src`.\n",
    "crates.txt": "# A comment: none.\nfile_commands may_wait=1: clap\n",
    "docs/A.md": "# A\n\n```\n[no](link.md)\n```\n\n## Two words\n\nwasm-shim 0.2.0\n",
    "clients/python/feulgama/__init__.py": '__version__ = "0.2.0"\n',
    "clients/python/pyproject.toml": '[project]\nversion = "0.2.0"\n',
    "clients/oci/main.go": 'package main\n\nconst Version = "0.2.0"\n\nfunc main() {}\n',
    ".ci/packages": "# A comment.\ngit\n",
}
CHECKS = [edits.check, memory_words.check, listed_calls.check, links.check, named_code.check, versions.check, manifest.check,
          layout.check]
Check = Callable[[Tree], tuple[int, list[str]]]


def tree_of(folder: Path, changes: dict[str, str | None]) -> Tree:
    """The tree with these files in place of its own; None takes a file away."""
    subprocess.run(["git", "init", "-q", str(folder)], check=True)
    files: dict[str, str | None] = {**FILES, **changes}
    for name, text in files.items():
        if text is not None:
            (folder / name).parent.mkdir(parents=True, exist_ok=True)
            (folder / name).write_text(text)
    return Tree(folder)


@pytest.mark.parametrize("check", CHECKS, ids=[check.__module__ for check in CHECKS])
def test_nothing_is_wrong(check: Check, tmp_path: Path) -> None:
    count, faults = check(tree_of(tmp_path, {}))
    assert faults == []
    assert count > 0


def test_the_gate_makes_each_of_these_checks() -> None:
    assert set(CHECKS) <= set(run.CHECKS.values())


CODE = FILES["crates/file_commands/src/command.rt"]
MAP = FILES["docs/Map.md"]
HANDS = FILES["crates/callers/src/hands.rt"]
TOLD = "fn b() {\n    sleepers.notify_all();\n    book.close();\n}\n"
WRONG: dict[str, tuple[Check, dict[str, str | None], str]] = {
    "a stale edit": (
        edits.check, {"crates/file_commands/src/command.rt": CODE.replace("one_more(2)", "one_more(3)")}, "is 0 times"),
    "an edit whose text is there twice": (
        edits.check, {"crates/file_commands/src/command.rt": CODE + "// one_more(2)\n"}, "is 2 times"),
    "an edit whose second pair no longer fits after the first": (
        edits.check, {"crates/file_commands/attacks/more.edit": FILES["crates/file_commands/attacks/more.edit"].replace(
            "old: two_more(2)", "old: one_more(2)")}, "is 0 times"),
    "an edit of a file that is not there": (
        edits.check, {"crates/file_commands/must-fail/less.edit": "file: src/gone.rt\nold: a\nnew: b\n"},
        "src/gone.rt is not in"),
    "an edit that changes nothing": (
        edits.check, {"crates/file_commands/must-fail/less.edit": "file: src/command.rt\n"}, "changes nothing"),
    "an edit of other lines": (
        edits.check, {"crates/file_commands/must-fail/less.edit": "file: src/command.rt\nodl: a\n"},
        "begins no line of an edit"),
    "too many edits of the gate": (
        edits.check, {f"crates/file_commands/must-fail/{n}.edit": FILES["crates/file_commands/must-fail/less.edit"]
                      for n in range(90)}, "91 edits in must-fail/"),
    "a lost test file": (manifest.check, {"tests/test_one.py": None}, "tests/test_one.py: tests/manifest.txt says 1 tests"),
    "a lost test": (manifest.check, {"tests/test_one.py": "def no_test() -> None:\n    pass\n"}, "there are 0"),
    "a lost edit": (manifest.check, {"crates/file_commands/attacks/more.edit": None}, "says 2 files, and there are 1"),
    "a suite that is counted twice": (
        manifest.check, {"tests/manifest.txt": FILES["tests/manifest.txt"] * 2}, "tests/test_one.py has 2 lines"),
    "a test file of no suite": (manifest.check, {"tests/test_two.py": "def test_two() -> None:\n    pass\n"},
                                "tests/test_two.py: a file of tests that no line"),
    "a broken link": (links.check, {"docs/A.md": None}, "leads to docs/A.md, which is not there"),
    "a link to no heading": (
        links.check, {"docs/A.md": "# A\n\n## Other words\n"}, "leads to a heading that docs/A.md has not"),
    "a path in code that is gone": (links.check, {"tests/test_one.py": None}, "`tests/test_one.py` is not there"),
    "a function that is gone": (
        named_code.check, {"crates/file_commands/src/command.rt": CODE.replace("fn whole", "fn wholes")},
        "has no function whole"),
    "a file of a function that is gone": (
        named_code.check, {"crates/file_commands/src/command.rt": None}, "crates/file_commands/src/command.rt is not there"),
    "a question without a function": (
        named_code.check, {"docs/Map.md": MAP.replace("`whole`, `Command::whole`", "")}, "names 1 files and 0 functions"),
    "a crate that the map lacks": (
        named_code.check, {"crates.txt": "file_commands:\nwasm_ast: core\n"}, "the table of crates lacks wasm_ast"),
    "a crate of the map that is gone": (named_code.check, {"crates.txt": "wasm_ast:\n"}, "file_commands is no crate of"),
    "a file of the map that is gone": (
        named_code.check, {"docs/Map.md": MAP.replace("| `src/command.rt` |", "| `src/gone.rt` |")},
        "src/gone.rt is not there"),
    "a path of a crate that is gone": (
        named_code.check, {"docs/Map.md": MAP.replace("`file_commands/src`", "`file_commands/proofs/`")},
        "`file_commands/proofs/` is not there"),
    "another version of the program": (
        versions.check, {"crates/file_commands/src/command.rt": CODE.replace("0.2.0", "0.3.0")},
        "and crates/file_commands"),
    "another version in the changelog": (
        versions.check, {"CHANGELOG.md": "## [Unreleased]\n\n## 0.3.0 - 2026-02-02\n\n## 0.2.0\n"},
        "CHANGELOG.md: says 0.3.0"),
    "another version before the sections of the changelog": (
        versions.check, {"CHANGELOG.md": "It prints `wasm-shim 0.1.0`.\n\n## 0.2.0\n\n`wasm-shim 0.1.0` did not.\n"},
        "CHANGELOG.md: says 0.1.0"),
    "another version of the client": (
        versions.check, {"clients/python/feulgama/__init__.py": '__version__ = "0.1.0"\n'}, "says 0.1.0"),
    "another version of its package": (
        versions.check, {"clients/python/pyproject.toml": '[project]\nversion = "0.1.0"\n'}, "says 0.1.0"),
    "another version of a client in Go": (
        versions.check, {"clients/oci/main.go": 'package main\n\nconst version = "0.1.0"\n'}, "says 0.1.0"),
    "another version in a client's words": (
        versions.check, {"clients/python/feulgama/program.py": '"""It says `wasm-shim 0.1.0`."""\n'}, "says 0.1.0"),
    "another version in a client's test": (
        versions.check, {"clients/python/tests/test_it.py": 'IT = "feulgama 0.1.0"\n'}, "says 0.1.0"),
    "another version on the library's page": (
        versions.check, {"clients/python/docs/library.md": "```\n>>> feulgama.__version__\n'0.1.0'\n```\n"}, "says 0.1.0"),
    "another version of the runtime": (
        versions.check, {"clients/oci/src/version/version.go": 'package version\n\nconst Number = "0.1.0"\n'}, "says 0.1.0"),
    "a file of the version without one": (
        versions.check, {"clients/oci/src/version/version.go": "package version\n"}, "version.go: says no version"),
    "another version of the package's own file": (
        versions.check, {"clients/python/feulgama/version.py": '__version__ = "0.1.0"\n'}, "says 0.1.0"),
    "another version of the runtime on a page": (
        versions.check, {"docs/A.md": "# A\n\n## Two words\n\nfeulgama-oci version 0.1.0\n"}, "docs/A.md: says 0.1.0"),
    "another version on a page": (versions.check, {"docs/A.md": "wasm-shim 0.1.0\n"}, "docs/A.md: says 0.1.0"),
    "a word of memory without a reason": (
        memory_words.check, {"crates/file_commands/src/command.rt": CODE + "fn b() -> Refusal {\n    Refusal::NoMemory\n}\n"},
        "crates/file_commands/src/command.rt b: Refusal::NoMemory"),
    "an error of memory that is made before it is answered": (
        memory_words.check, {"crates/file_commands/src/command.rt": CODE + "fn b() {\n    let refused = AllocError;\n}\n"},
        "crates/file_commands/src/command.rt b: let refused = AllocError;"),
    "a refusal as of a shim that is closed": (
        memory_words.check, {"crates/callers/src/hands.rt": HANDS + "fn b() -> Answer {\n    Err(Refusal::Closed)\n}\n"},
        "crates/callers/src/hands.rt b: Err(Refusal::Closed)"),
    "an end of the program without a cause": (
        memory_words.check, {"crates/callers/src/hands.rt": HANDS + "fn b() {\n    failed(to, OUT_OF_MEMORY);\n}\n"},
        "crates/callers/src/hands.rt b: failed(to, OUT_OF_MEMORY);"),
    "an answer under a wider condition": (
        memory_words.check, {
            "crates/file_commands/src/a.rt": "fn b() -> Answer {\n    let Ok(a) = f(1) else {\n"
                                             "        return Err(AllocError);\n    };\n    a\n}\n",
            "tests/memory_words.txt": "# Memory ran out for it.\ncrates/file_commands/src/a.rt b 1 return Err(AllocError);"
                                      " under let (Ok(a), true) = (f(1), size < 9) else {\n"},
        "a.rt b: return Err(AllocError); under let Ok(a) = f(1) else {"),
    "an end of the program in words of its own": (
        memory_words.check, {"crates/wasm_shim/src/a.rt": 'fn b() {\n    failed(to, "out of memory");\n}\n'},
        'crates/wasm_shim/src/a.rt b: failed(to, "out of memory");'),
    "a task that is not found": (
        memory_words.check, {"crates/callers/src/hands.rt": HANDS + "fn b() -> Option<Runnable> {\n    None\n}\n"},
        "crates/callers/src/hands.rt b: None"),
    "nothing by a question mark": (
        memory_words.check, {"crates/callers/src/hands.rt": HANDS + "fn b() -> Option<A> {\n    (n < 9).then_some(())?;\n}\n"},
        "crates/callers/src/hands.rt b: (n < 9).then_some(())?;"),
    "an output that is said to have failed": (
        memory_words.check, {"crates/file_commands/src/a.rt": "fn b() {\n    Err(RunError::StandardError(e))\n}\n"},
        "b: Err(RunError::StandardError(e))"),
    "a number that is said to be too large": (
        memory_words.check, {"crates/flat_code/src/a.rt": "fn b() {\n    narrow(usize::MAX)?;\n}\n"},
        "b: narrow(usize::MAX)?;"),
    "a reason for a word that is gone": (
        memory_words.check, {"crates/file_commands/src/command.rt": 'const VERSION: &str = "0.2.0";\n'}, "remove it"),
    "a list without the reason": (
        memory_words.check, {"tests/memory_words.txt": FILES["tests/memory_words.txt"].partition("\n")[2]},
        "no reason is given"),
    "a task that is let go of by its ticket": (
        listed_calls.check, {"crates/callers/src/hands.rt": HANDS + "fn b(t: Runnable) {\n    let _t = t.into_ticket();\n}\n"},
        "crates/callers/src/hands.rt b: let _t = t.into_ticket();: such a call is made here 1 times"),
    "a seat that nobody asked for": (
        listed_calls.check, {"crates/callers/src/hands.rt": HANDS + "fn b() {\n    shim.seat(rt);\n}\n"},
        "b: shim.seat(rt);"),
    "a shim that is closed early": (
        listed_calls.check, {"crates/callers/src/hands.rt": HANDS + "fn b() {\n    shim.close(rt);\n}\n"},
        "b: shim.close(rt);"),
    "a task that is let go of by the function of its type": (
        listed_calls.check, {"crates/callers/src/hands.rt": HANDS + "fn b(t: Runnable) {\n    Runnable::into_ticket(t);\n}\n"},
        "b: Runnable::into_ticket(t);"),
    "a seat by the function of its type": (
        listed_calls.check, {"crates/callers/src/hands.rt": HANDS + "fn b() {\n    let s = Shim::<J>::seat(shim, rt);\n}\n"},
        "b: let s = Shim::<J>::seat(shim, rt);"),
    "a slice under the lock": (
        listed_calls.check, {"crates/call_journal/src/a.rt": "fn b() {\n    let _held = self.shared.lock(rt);\n}\n"},
        "b: let _held = self.shared.lock(rt);"),
    "a slice of other turns": (
        listed_calls.check, {"crates/call_journal/src/a.rt": "fn b() {\n    shared.book.take(task, 2)\n}\n"},
        "b: shared.book.take(task, 2)"),
    "a worker that is told in fewer cases": (
        listed_calls.check, {"crates/call_journal/src/a.rt": "fn b() {\n    if a > 0 {\n        c.notify_one();\n    }\n}\n"},
        "b: c.notify_one(); under if a > 0 {"),
    "workers of another number": (
        listed_calls.check, {"crates/serve_command/src/a.rt": "fn b() {\n    let workers = 1;\n}\n"}, "b: let workers = 1;"),
    "more turns by the constant of another crate": (
        listed_calls.check, {"crates/file_commands/src/a.rt": "pub const ROOM: u64 = 9;\n"}, "ROOM: pub const ROOM: u64 = 9;"),
    "memory that nobody asked for": (
        listed_calls.check, {
            "crates/file_commands/src/command.rt": CODE + "fn b() {\n    let more = vec![in alloc; 0; 9]?;\n}\n"},
        "b: let more = vec![in alloc; 0; 9]?;"),
    "memory that a list grows by": (
        listed_calls.check, {"crates/file_commands/src/command.rt": CODE + "fn b() {\n    spare.resize(1 << 30, 0)?;\n}\n"},
        "b: spare.resize(1 << 30, 0)?;"),
    "memory that is never freed": (
        listed_calls.check, {"crates/file_commands/src/command.rt": CODE + "fn b() {\n    std::mem::forget(line);\n}\n"},
        "b: std::mem::forget(line);"),
    "more memory than was asked for": (
        listed_calls.check, {"crates/callers/src/hands.rt": HANDS.replace("= 2", "= 3")}, "ROOM: const ROOM: usize = 3;"),
    "a worker that leaves where it has to sleep": (
        listed_calls.check, {"crates/slice_workers/src/a.rt": "fn b() {\n    shim.next_waiting(rt)\n}\n"},
        "b: shim.next_waiting(rt)"),
    "an end that is told twice": (
        listed_calls.check, {"crates/callers/src/hands.rt": HANDS + "fn b() {\n    notes.ended(id, n, end);\n}\n"},
        "b: notes.ended(id, n, end);"),
    "a read whose error is passed over": (
        listed_calls.check, {"crates/wasm_shim/src/a.rt": "fn b() {\n    Ok(file.read(buf).unwrap_or(0))\n}\n"},
        "b: Ok(file.read(buf).unwrap_or(0))"),
    "calls in another order": (
        listed_calls.check, {
            "crates/callers/src/hands.rt": HANDS + TOLD,
            "tests/call_order.txt": "crates/callers/src/hands.rt b close notify_all\n"},
        "crates/callers/src/hands.rt b notify_all close: tests/call_order.txt has not this order"),
    "an order that is no longer kept": (
        listed_calls.check, {"tests/call_order.txt": "crates/callers/src/hands.rt end lock close\n"}, "remove the line"),
    "a reason for a call that is gone": (
        listed_calls.check, {"crates/callers/src/hands.rt": HANDS.replace("task.into_ticket()", "task")}, "remove it"),
    "spaces at the end of a line": (layout.check, {"docs/A.md": "# A \n\n## Two words\n"}, "spaces at the end"),
    "a tab": (layout.check, {"docs/A.md": "# A\n\n\tb\n"}, "has tabs"),
    "the mark of a merge": (layout.check, {"docs/A.md": "# A\n\n<<<<<<< HEAD\nb\n"}, "has the mark of a merge"),
    "carriage returns": (layout.check, {"docs/A.md": "# A\r\n"}, "carriage returns"),
    "no line feed at the end": (layout.check, {"docs/A.md": "# A"}, "does not end with a line feed"),
    "a file that is too long": (layout.check, {"tests/test_one.py": "pass\n" * 800}, "has 800 lines"),
}


@pytest.mark.parametrize("name", WRONG)
def test_fault_is_found(name: str, tmp_path: Path) -> None:
    check, changes, said = WRONG[name]
    _, faults = check(tree_of(tmp_path, changes))
    assert any(said in fault for fault in faults), faults


def test_clients_may_be_missing(tmp_path: Path) -> None:
    gone = {name: None for name in FILES if name.startswith("clients/")}
    assert versions.check(tree_of(tmp_path, {**gone}))[1] == []


def made_in(code: str) -> list[str]:
    return [place.text for place in memory_words.places_in("a.rt", f"fn f() {{\n{code}\n}}\n")]


@pytest.mark.parametrize("code", [
    "Err(AllocError)", "a.ok_or(AllocError)?;", "a.map_err(|_| AllocError)", "return Err(Refusal::NoMemory);",
    "Err(_) => Err(RunError::OutOfMemory),", "Stop::OutOfMemory => Driven::NoMemory,", "ReadError::Memory", "AllocError",
    'let text = r#"a " b"#; Err(AllocError)', "if let Err(e) = f() { return Err(AllocError); }",
    "let refused = AllocError;", "refused = AllocError;", "return AllocError;", "Told { error: AllocError, place }",
    "if x { return Err(Refusal::NoMemory); } match y { A => b }", "match y { A => Err(AllocError), B => c }",
    "match y { A => { Err(AllocError) } B => c }", "match y { A if f(Refusal::NoMemory) => b, B => c }",
    "match f(Refusal::NoMemory) { A => b }", "rows!(Refusal::NoMemory => f(x))", "use std::alloc::AllocError as Gone;"])
def test_word_of_memory_is_made(code: str) -> None:
    assert made_in(code) == [code]


@pytest.mark.parametrize("code", [
    "fn g() -> Result<u8, AllocError>", "// Err(AllocError)", "use std::alloc::{\n    AllocError,\n};",
    "impl From<AllocError> for E {",
    "if let Err(Refusal::NoMemory) = answer {", "Err(Refusal::NoMemory) if some => None,", "refusal == Refusal::NoMemory",
    "matches!(error, Refusal::NoMemory)", "ensures { e ≡ Refusal.NoMemory }", '"Err(AllocError)"', "ExportKind::Memory",
    "fn from(_e: AllocError) -> E {", ") -> Result<(), AllocError>",
    "match y { Err(\n    Refusal::NoMemory,\n) => b, C => d }", "match y { A => { b } Err(Refusal::NoMemory) if x => c }",
    "match y { Told { error: Refusal::NoMemory } | Gone => b, C => d }", "let refused: AllocError = error;", "return None;",
    "let Told { error: Refusal::NoMemory } = y else { b };", "struct Told { error: AllocError }", "enum E { NoMemory, Other }",
    "fn g(\n    error: AllocError,\n) {}"])
def test_word_of_memory_is_not_made(code: str) -> None:
    assert made_in(code) == []


@pytest.mark.parametrize("code", [
    "A => (seat, Err(Refusal::Closed)), other => f(seat, other),", "return Err(Refusal::JournalFull);",
    "seen.ok_or(Refusal::JournalFault)", "if x { return Err(StartError::NoThread); }",
    "if x { return failed(to, OUT_OF_MEMORY); }", "Ok(Err(_)) => failed(to, NO_SEAT),", "let cause = OUT_OF_MEMORY;"])
def test_answer_that_needs_a_cause_is_made(code: str) -> None:
    assert made_in(code) == [code]


@pytest.mark.parametrize("code", [
    "Refusal::Closed => 19,", "Err(Refusal::JournalFull | Refusal::JournalFault) => b,", "if answer != Refusal::Closed {",
    "StartError::NoThread => failed(to, cause),", "pub const OUT_OF_MEMORY: &str = text;",
    "use crate::said::{OUT_OF_MEMORY, failed};", "enum StartError { NoThread }", "ensures { result ≡ Err Refusal.Closed }",
    "book.is_closed()"])
def test_answer_that_needs_a_cause_is_not_made(code: str) -> None:
    assert made_in(code) == []


@pytest.mark.parametrize("code, condition", [
    ("if a\n    || b\n{\n    return Err(AllocError);\n}", "if a || b {"),
    ("let (Ok(a), true) = (f(b), c) else {\n    return Err(AllocError);\n};", "let (Ok(a), true) = (f(b), c) else {"),
    ("let Told { a, .. } = f(b) else {\n    return Err(AllocError);\n};", "let Told { a, .. } = f(b) else {"),
    ("f();\nif a {\n    b\n} else {\n    Err(AllocError)\n}", "if a { b } else {"),
    ("if a {\n    b();\n}\nif c {\n    return Err(AllocError);\n}", "if c {"),
    ("match a {\n    B => c,\n    D | E if f => {\n        g();\n        Err(AllocError)\n    }\n}", "D | E if f => {"),
    ("match a {\n    B { c }\n    | D { .. } => f(\n        g, AllocError,\n    ),\n}", "B { c } | D { .. } =>"),
    ("if a {\n    f(move || {\n        Err(AllocError)\n    })\n}", "if a {"),
    ("if a {\n    return Err(Told {\n        error: AllocError,\n    });\n}", "if a {"),
    ("if a {\n    fn g<A, B>(c: A) -> B {\n        Err(AllocError)\n    }\n}", None),
    ("if a { return Err(AllocError); }", None), ("f();\nErr(AllocError)", None),
    ("match a {\n    B => Err(AllocError),\n}", None)])
def test_condition_of_an_answer_is_listed(code: str, condition: str | None) -> None:
    found = [text.partition(" under ")[2] for text in made_in(code)]
    assert found == [condition or ""]


@pytest.mark.parametrize("code", [
    'failed(rt, "out of memory");', 'stream_failed(rt, "standard output", &error);', 'let status = failed(rt, r#"none"#);',
    "return None;", "Some(f(None))", "let mut known = None;", "A => (seat, None),", "Option::None", "None::<Seat>"])
def test_end_and_nothing_are_made(code: str) -> None:
    found = memory_words.places_in("crates/wasm_shim/src/a.rt", f"fn f() {{\n{code}\n}}\n")
    assert [place.text for place in found] == [code]


@pytest.mark.parametrize("code", [
    "failed(rt, cause);", "stream_failed(rt, name, &error);", 'fn failed(rt: &H, cause: &str) { f("a") }',
    'not_failed(rt, "a");', '// failed(rt, "a");', "if let None = a {", "None => f(),", "if a == None {", "Kind::None"])
def test_end_and_nothing_are_not_made(code: str) -> None:
    assert not list(memory_words.places_in("crates/wasm_shim/src/a.rt", f"fn f() {{\n{code}\n}}\n"))


def test_nothing_is_listed_in_the_crates_of_threads() -> None:
    assert not list(memory_words.places_in("crates/flat_code/src/a.rt", 'fn f() {\nfailed(rt, "a");\nNone\n}\n'))


@pytest.mark.parametrize("code", [
    "queue.try_push(task.into_ticket());", "Runnable::of(ticket)", "self.book.close();", "shim.seat(&threads)",
    "worker(rt, self, 1);", "with_workers(rt, 1, run)", "Runnable::into_ticket(task);", "tickets.map(Runnable::of)",
    "Shim::close(self, rt);", "let close = Shim::<J>::close;", "seats.push(Book::seat(&mut shared.book));",
    "<J as Shim>::seat(rt)",
    "let held = self.shared.lock(rt);", "let held = Mutex::lock(&shared, rt);", "loan.run();", "self.take_waiting(rt, id, 2)?",
    "self.settled.notify_all();", "let s = self.waiting.wait_while(rt, s, |s| true);", "shim.wake(rt);",
    "flight.end(rt, driven);", "let gone = shared.book.call(&cells, &mut seat, Request::Gc);", "Book::call(&mut book, &cells)",
    "names.iter().take(16)", "run_slice(rt, task, 2)", "serve(rt, 1, work)", "use call_journal::Runnable as Task;",
    "IndexSet::with_capacity(alloc, 9)", "list.reserve(1)?;", "vec![in alloc; 0u8; 9]?;", "allocate(&alloc, 9, &0u8)",
    "entries.resize(size, None)?;", "text.repeat(alloc, 9)?", "list.try_reserve_exact(9)?;", "std::mem::forget(line);",
    "None => forget(words),", "open(lines.leak())", "Ok(flight) => Some(Box::leak(flight)),", "flight.map(Box::leak)",
    "let kept = ManuallyDrop::new(line);", "let at = Box::into_raw(flight);", "use std::mem::forget as end;",
    "bytes: bytes.share()?,", "let bytes = bytes.into_arc();", "let own = Arc::try_clone(&bytes)?;", "places.sort_unstable();",
    "self.opened.drop_idle(store, tasks);", "let shown = inspect(alloc, machine);", "let id: ArrayString<64> = id;",
    "return Work::Scripts(names, inputs);"])
def test_call_is_listed(code: str) -> None:
    found = listed_calls.places_in("crates/callers/src/a.rt", f"fn f() {{\n    {code}\n}}\n")
    assert [place.text for place in found] == [code]


@pytest.mark.parametrize("code", [
    "// task.into_ticket()", "fn with_capacity(room: usize) {}", "pub fn worker(rt: &W) {}", "use std::vec::with_capacity;",
    "blocks.is_closed()", "let at: crate::seat::Seat = seat;", "use crate::seat::Seat;", "Snapshot::of(loan)", "run()",
    "self.block(x)", "let seat = seat(shim);", '"vec![in alloc; 9]"', "fn resize(size: usize) {}", "repeated(alloc, line, 2)",
    "pub fn forget<T>(row: Slots<T>) {}", "use raw_block::{forget, no_places};", "let flight = leaked_flight(alloc);",
    "pub fn inspect(alloc: Global) {}", "use arrayvec::ArrayString;", "use debugger::inspect;"])
def test_call_is_not_listed(code: str) -> None:
    assert not list(listed_calls.places_in("crates/callers/src/a.rt", f"fn f() {{\n    {code}\n}}\n"))


@pytest.mark.parametrize("code, times", [
    ("let few = if workers > 4 { 4 } else { workers };", 2), ("let workers = 1;", 1), ("let mut workers = 1;", 1),
    ("Service { rt, workers: 1, wanted }", 1), ("Service { rt, workers, wanted }", 1), ("f(service.workers)", 1),
    ("let Service { rt, workers, wanted } = service;", 0), ("Command::Serve { workers, scripts } => f(scripts),", 0),
    ("fn g(workers: u64) {}", 0), ("ensures { result ≤ workers }", 0), ("// workers", 0), ("with_no_workers()", 0)])
def test_number_of_workers_is_listed_where_it_is_handed_on(code: str, times: int) -> None:
    found = listed_calls.places_in("crates/serve_command/src/a.rt", f"fn f() {{ match y {{\n    {code}\n}} }}\n")
    assert [place.text.partition(" under ")[0] for place in found] == [code] * times


def test_hands_are_those_of_threads() -> None:
    assert not list(listed_calls.places_in("crates/flat_code/src/a.rt", "fn f() {\n    blocks.close();\n}\n"))


def test_writes_are_listed_where_no_clause_speaks_of_them() -> None:
    code = "fn f() {\n    file.write(bytes)\n    file.write_all(bytes)\n}\n"
    found = listed_calls.places_in("crates/wasm_shim/src/a.rt", code)
    assert [place.text for place in found] == ["file.write(bytes)", "file.write_all(bytes)"]
    assert not list(listed_calls.places_in("crates/file_commands/src/a.rt", code))


def test_a_question_mark_may_end_what_answers_no_option() -> None:
    code = "fn b() -> Result<u8, E> {\n    one(2)?\n}\n\nfn c(n: Option<u8>) -> u8 {\n    n.map(f)?\n}\n"
    assert list(memory_words.places_in("crates/callers/src/a.rt", code)) == []
    code = ("fn b(\n    n: u8,\n) -> Option<(u8, Loan)>\n    requires { 1 ≤ n }\n{\n"
            "    let a = one(n)?;\n    Some((a, two(n)?))\n}\n")
    assert [place.text for place in memory_words.places_in("crates/callers/src/a.rt", code)] == [
        "let a = one(n)?;", "Some((a, two(n)?))"]
    assert list(memory_words.places_in("crates/reasons/src/a.rt", code)) == []


def test_an_order_of_calls_is_that_of_their_places() -> None:
    code = "fn b(&self) {\n    let a = self.lock(rt);\n    a.close();\n    self.more.notify_all();\n}\n"
    path = "crates/callers/src/a.rt"
    assert list(listed_calls.orders_in(path, code)) == [f"{path} b lock close notify_all"]
    assert list(listed_calls.orders_in("crates/reasons/src/a.rt", code)) == []
    code = "fn b() {\n    a.close();\n}\n\nfn c() {\n    a.lock(rt);\n}\n"
    assert list(listed_calls.orders_in(path, code)) == []


def test_tests_may_keep_memory(tmp_path: Path) -> None:
    tree = tree_of(tmp_path, {"crates/test_serve/src/a.rt": "fn f() {\n    lines.leak();\n}\n"})
    assert listed_calls.check(tree)[1] == []


def test_packages_that_are_missing_are_named(tmp_path: Path) -> None:
    tree = tree_of(tmp_path, {".ci/packages": "git\nno-such-package-of-this-name\n"})
    assert programs.missing(tree) == ["no-such-package-of-this-name"]


def test_nothing_is_passed_over_without_a_package(monkeypatch: pytest.MonkeyPatch, capsys: pytest.CaptureFixture[str]) -> None:
    monkeypatch.setattr(programs, "missing", lambda _tree: ["mypy", "golang-go"])
    assert run.main(["layout"]) == 1
    told = capsys.readouterr()
    assert told.err == "check-ci: packages are missing: apt-get install -y --no-install-recommends mypy golang-go\n"
    assert told.out == "check-ci: 0 passed, 1 failed\n"


def test_checks_are_counted(monkeypatch: pytest.MonkeyPatch, capsys: pytest.CaptureFixture[str]) -> None:
    monkeypatch.setattr(programs, "missing", lambda _tree: [])
    monkeypatch.setattr(run, "CHECKS", {"good": lambda _tree: (3, []), "bad": lambda _tree: (2, ["a.md: is wrong"])})
    assert run.main([]) == 1
    lines = capsys.readouterr().out.splitlines()
    assert "good: ok (3 looked at, 0 s)" in lines and "a.md: is wrong" in lines
    assert lines[-1] == "check-ci: 1 passed, 1 failed"
    assert run.main(["good"]) == 0
    assert run.main(["ugly"]) == 2


def faults_of_tools(tree: Tree) -> list[str]:
    """Which commands over tools/ failed."""
    for path in (tree.root / "tools").iterdir():
        path.chmod(0o755)
    return [fault.partition(": ended")[0] for fault in programs.check_tools(tree)[1]]


def test_scripts_are_read(tmp_path: Path) -> None:
    good = {f"tools/{name}": "#!/bin/sh\nexit 0\n" for name in ("wrap", "reached", "calls")}
    wrong = {"tools/some": ("#!/usr/bin/env bash\nif\n", "bash -n tools/some"),
             "tools/calls": ("#!/bin/sh\nexit 1\n", "tools/calls --check"),
             "tools/wrap": ("#!/bin/sh\nexit 1\n", "tools/wrap --say")}
    assert faults_of_tools(tree_of(tmp_path / "good", {**good})) == []
    for name, (text, said) in wrong.items():
        assert faults_of_tools(tree_of(tmp_path / Path(name).name, {**good, name: text})) == [said]


def test_style_is_refused(tmp_path: Path) -> None:
    assert programs.check_flake8(tree_of(tmp_path, {}))[1] == []
    assert "E501" in programs.check_flake8(tree_of(tmp_path / "b", {"tests/test_one.py": f"A = {'1' * 200}\n"}))[1][0]


def test_types_are_refused(tmp_path: Path) -> None:
    setup = {"setup.cfg": "[mypy]\nstrict = True\n"}
    assert programs.check_mypy(tree_of(tmp_path, {**setup}))[1] == []
    wrong = tree_of(tmp_path / "b", {**setup, "tests/test_one.py": "def test_one():\n    pass\n"})
    assert "no-untyped-def" in programs.check_mypy(wrong)[1][0]


CLIENT_TESTS = """
import threading
import time
import unittest

import pytest

class Some(unittest.TestCase):
    def test_plain(self) -> None:
        pass

    async def test_late(self) -> None:
        begin = time.monotonic()

class Waits(unittest.TestCase):
    def wait(self) -> None:
        time.sleep(1)

    def test_by_its_class(self) -> None:
        self.wait()

def test_soon() -> None:
    threading.Timer(1, print).start()
"""


def test_tests_by_the_clock_are_told_apart() -> None:
    late = ["t.py::test_soon", "t.py::Some::test_late", "t.py::Waits::test_by_its_class"]
    assert programs.unmarked_tests("t.py", CLIENT_TESTS) == late
    assert len(programs.unmarked_tests("t.py", CLIENT_TESTS + "# simulated_shim\n")) == 4
    assert programs.unmarked_tests("t.py", CLIENT_TESTS + "pytestmark = pytest.mark.clock\n") == []
    marked = CLIENT_TESTS.replace("class Waits", "@pytest.mark.clock\nclass Waits").replace(
        "    async", "    @pytest.mark.clock\n    async")
    assert programs.unmarked_tests("t.py", marked) == late[:1]


def test_what_goes_by_the_clock_is_not_run(tmp_path: Path) -> None:
    name, plain = "clients/python/tests/test_late.py", "def test_plain() -> None:\n    assert {}\n"
    setup = {"clients/python/pyproject.toml": '[tool.pytest.ini_options]\nmarkers = ["clock: late"]\n'}
    late = "import time\n\nimport pytest\n\n{}def test_late() -> None:\n    assert time.monotonic() < 0\n\n\n"
    marked = late.format("@pytest.mark.clock\n")
    assert programs.check_client_tests(tree_of(tmp_path / "a", {**setup, name: marked + plain.format(True)})) == (1, [])
    wrong = tree_of(tmp_path / "b", {**setup, name: marked + plain.format(False)})
    assert "test_plain" in programs.check_client_tests(wrong)[1][0]
    faults = programs.check_client_tests(tree_of(tmp_path / "c", {**setup, name: late.format("") + plain.format(True)}))[1]
    assert f"{name}::test_late: goes by the clock, and is not marked by pytest.mark.clock" in faults


def test_form_of_go_is_refused(tmp_path: Path) -> None:
    assert programs.check_go(tree_of(tmp_path, {}))[1] == []
    faults = programs.check_go(tree_of(tmp_path / "b", {"clients/oci/main.go": "package main\nfunc main() {\n}\n"}))[1]
    assert faults == ["gofmt -l: clients/oci/main.go: run gofmt -w on these"]


def test_faults_of_go_are_refused(tmp_path: Path) -> None:
    code = 'package main\n\nimport "fmt"\n\nfunc main() {\n\tfmt.Printf("%d\\n", "text")\n}\n'
    faults = programs.check_go(tree_of(tmp_path, {"clients/oci/main.go": code}))[1]
    assert "go vet of clients/oci" in faults[0]


GO_TEST = """package one

import "testing"

func TestOne(t *testing.T) {
\tif One() != 1 {
\t\tt.Error("not one")
\t}
}
"""
GO_CLOCK = """package one

import (
\t"testing"
\t"time"
)

func TestLate(t *testing.T) {
\ttime.Sleep(1)
}
"""


def test_tests_of_go_are_run(tmp_path: Path) -> None:
    """Over packages of their own, as those of clients/oci."""
    files = {"clients/oci/src/a/one/one.go": "package one\n\nfunc One() int { return 1 }\n",
             "clients/oci/src/a/one/one_test.go": GO_TEST,
             "clients/oci/src/a/two/two.go": 'package two\n\nimport "a/one"\n\nvar Two = one.One() + 1\n'}
    tree = tree_of(tmp_path / "a", {**files})
    assert programs.check_go(tree) == (4, [])
    assert programs.check_oci_tests(tree) == (1, [])
    wrong = {**files, "clients/oci/src/a/one/one.go": "package one\n\nfunc One() int { return 2 }\n"}
    assert "not one" in programs.check_oci_tests(tree_of(tmp_path / "b", {**wrong}))[1][0]


def test_a_client_in_go_has_the_packages_of_others(tmp_path: Path) -> None:
    files: dict[str, str | None] = {
        "clients/oci/src/a/one/one.go": "package one\n\nfunc One() int { return 1 }\n",
        "clients/other/src/b/one_test.go": GO_TEST.replace("package one", "package b").replace(
            'import "testing"', 'import (\n\t"a/one"\n\t"testing"\n)').replace("One() != 1", "one.One() != 1")}
    tree = tree_of(tmp_path, files)
    assert programs.check_go(tree)[1] == []
    assert programs.check_oci_tests(tree) == (1, [])


def test_types_of_each_folder_of_container_tests_are_looked_at(tmp_path: Path) -> None:
    """The later folders use modules of the first."""
    setup = {"setup.cfg": "[mypy]\nstrict = True\n", "tests/one.py": "ONE = 1\n",
             "clients/oci/test/checks/__init__.py": "", "clients/oci/test/checks/base.py": "NUMBER = 1\n"}
    name = "clients/containerd/test/other/more.py"
    right = "from checks.base import NUMBER\n\nMORE: int = NUMBER\n"
    assert programs.check_mypy(tree_of(tmp_path / "a", {**setup, name: right}))[1] == []
    faults = programs.check_mypy(tree_of(tmp_path / "b", {**setup, name: right.replace("int", "str")}))[1]
    assert len(faults) == 1 and "mypy of clients/containerd/test" in faults[0]


def test_tests_of_go_by_the_clock_say_so(tmp_path: Path) -> None:
    name = "clients/oci/src/a/one/late_test.go"
    assert list(programs.unmarked_go_tests(tree_of(tmp_path / "a", {name: GO_CLOCK}))) == [
        f"{name}: TestLate goes by the clock, and does not call byTheClock(t)"]
    marked = GO_CLOCK.replace("\ttime.Sleep", "\tbyTheClock(t)\n\ttime.Sleep")
    assert list(programs.unmarked_go_tests(tree_of(tmp_path / "b", {name: marked}))) == []


def test_tests_of_images_are_run(tmp_path: Path) -> None:
    name = "clients/oci/test/test_image.py"
    assert programs.check_oci_tests(tree_of(tmp_path / "a", {name: "def test_one() -> None:\n    pass\n"})) == (1, [])
    assert programs.check_oci_tests(tree_of(tmp_path / "b", {name: "def test_one() -> None:\n    assert False\n"}))[1]
