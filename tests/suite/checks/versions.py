"""One version everywhere: the program's, the newest of CHANGELOG.md, the clients', and what pages and stored outputs print."""
from __future__ import annotations

import re
from collections.abc import Iterator
from dataclasses import dataclass

from suite.checks.tree import Tree

NUMBER = r"(\d+\.\d+\.\d+)"


@dataclass(frozen=True)
class Source:
    """Files that say the version, and how. Some have to be there and say it, some say it if they are there; the others may say
    nothing."""
    pattern: str
    said: re.Pattern[str]
    has_to: bool = False
    is_first: bool = False
    says: bool = False


SOURCES = [
    Source("crates/file_commands/src/command.rt", re.compile(rf"^const VERSION: &str = \"{NUMBER}[ \"]", re.MULTILINE),
           has_to=True),
    # The newest section with a number: all below it are older.
    Source("CHANGELOG.md", re.compile(rf"^## \[?{NUMBER}\]?", re.MULTILINE), has_to=True, is_first=True),
    Source("clients/*/pyproject.toml", re.compile(rf"^version = \"{NUMBER}\"", re.MULTILINE), is_first=True),
    Source("clients/*/version.py", re.compile(rf"^__version__ = \"{NUMBER}\"", re.MULTILINE), says=True),
    Source("clients/*/version/version.go", re.compile(rf"^const Number = \"{NUMBER}\"", re.MULTILINE), says=True),
    Source("clients/*/__init__.py", re.compile(rf"^__version__(?:: [\w\[\].]+)? = \"{NUMBER}\"", re.MULTILINE)),
    Source("clients/*.py", re.compile(rf"(?:wasm-shim(?:-\w+)?|feulgama)[ -]{NUMBER}")),
    Source("clients/*/package.json", re.compile(rf"\"version\": \"{NUMBER}\"")),
    Source("clients/*.go", re.compile(rf"^\s*(?:const |var )?[vV]ersion(?: string)?\s*=\s*\"{NUMBER}\"", re.MULTILINE)),
    Source("*debian/changelog", re.compile(rf"^[a-z][\w+.-]* \({NUMBER}", re.MULTILINE), is_first=True),
    Source("*.md", re.compile(rf"wasm-shim(?:-\w+)? {NUMBER}")),
    Source("*.md", re.compile(rf"feulgama-oci(?: version)? {NUMBER}")),
    # What the library's page shows of `__version__`.
    Source("clients/*/docs/library.md", re.compile(rf"^'{NUMBER}'$", re.MULTILINE)),
    Source("*.expected", re.compile(rf"wasm-shim(?:-\w+)? {NUMBER}")),
    Source("crates/*.rt", re.compile(rf"wasm-shim(?:-\w+)? {NUMBER}")),
]


def said(tree: Tree) -> Iterator[tuple[str, str]]:
    """Each place that says a version: the file and the version."""
    for source in SOURCES:
        for name in tree.matching(source.pattern):
            text = tree.text(name)
            if name == "CHANGELOG.md" and not source.has_to:
                text = text.partition("\n## ")[0]  # Its sections speak of older versions.
            found = source.said.findall(text)
            yield from ((name, version) for version in (found[:1] if source.is_first else found))


def check(tree: Tree) -> tuple[int, list[str]]:
    """How many places say the version, and which say another one than the program."""
    found = list(said(tree))
    faults = [f"{source.pattern}: no version is said there" for source in SOURCES
              if source.has_to and not any(name == source.pattern for name, _ in found)]
    faults += [f"{name}: says no version" for source in SOURCES if source.says
               for name in tree.matching(source.pattern) if not source.said.search(tree.text(name))]
    if faults:
        return len(found), faults
    program, version = found[0]
    faults += [f"{name}: says {other}, and {program} says {version}" for name, other in found if other != version]
    return len(found), faults
