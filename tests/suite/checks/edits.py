"""Edits of must-fail/ and attacks/: each one has to fit the file that it changes.

An edit that no longer fits is not refused by anything: the gate passes over it. So its `file:` has to be there, and each
`old:` text in that file exactly once, as the pairs before it have left it.
"""
from __future__ import annotations

from collections.abc import Iterator
from dataclasses import dataclass, field

from suite.checks.tree import Tree

PATTERNS = {"must-fail": "crates/*/must-fail/*.edit", "attacks": "crates/*/attacks/*.edit"}
# Each edit of must-fail/ costs the gate about 40 seconds of processor time.
MOST_MUST_FAIL = 90


@dataclass
class Edit:
    """An edit that is applied line by line: the files that it changes, by path, with their texts so far."""
    name: str
    tree: Tree
    texts: dict[str, str] = field(default_factory=dict)
    path: str | None = None
    old: str | None = None
    pairs: int = 0

    @property
    def crate(self) -> str:
        return "/".join(self.name.split("/")[:2])

    def faults(self) -> Iterator[str]:
        """What does not fit, a sentence each."""
        for line in self.tree.text(self.name).splitlines():
            key, colon, text = line.partition(":")
            for fault in self.read(key if colon else "", text.removeprefix(" ")):
                yield f"{self.name}: {fault}"
        if self.old is not None:
            yield f"{self.name}: the last `old:` has no `new:`"
        elif not self.pairs:
            yield f"{self.name}: it changes nothing"

    def read(self, key: str, text: str) -> Iterator[str]:
        if key == "file":
            yield from self.read_file(text.strip())
        elif key == "old":
            yield from self.read_old(text)
        elif key == "new":
            yield from self.read_new(text)
        elif key != "types" or "/attacks/" not in self.name:
            yield f"`{key}` begins no line of an edit (file, old, new)"

    def read_file(self, path: str) -> Iterator[str]:
        self.path = path
        if path not in self.texts:
            if self.tree.has(f"{self.crate}/{path}"):
                self.texts[path] = self.tree.text(f"{self.crate}/{path}")
            else:
                self.path = None
                yield f"its file {path} is not in {self.crate}"

    def read_old(self, text: str) -> Iterator[str]:
        if self.old is not None:
            yield f"`{self.old}` has no `new:`"
        self.old = text
        if self.path is None:
            yield f"`{text}` has no file"
            return
        count = self.texts[self.path].count(text) if text else 0
        if count != 1:
            yield f"`{text}` is {count} times in {self.path}, and has to be there once"

    def read_new(self, text: str) -> Iterator[str]:
        old, self.old = self.old, None
        if old is None:
            yield f"`new: {text}` has no `old:`"
            return
        if text == old:
            yield f"`{old}` is not changed"
        self.pairs += 1
        if self.path is not None:
            self.texts[self.path] = self.texts[self.path].replace(old, text)


def check(tree: Tree) -> tuple[int, list[str]]:
    """How many edits there are, and what is wrong with them."""
    edits = {kind: tree.matching(pattern) for kind, pattern in PATTERNS.items()}
    faults = [fault for names in edits.values() for name in names for fault in Edit(name, tree).faults()]
    if len(edits["must-fail"]) > MOST_MUST_FAIL:
        faults.append(f"{len(edits['must-fail'])} edits in must-fail/, and at most {MOST_MUST_FAIL} are allowed: "
                      "move some to attacks/ of their crates")
    return sum(map(len, edits.values())), faults
