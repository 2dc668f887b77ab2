"""Links of all pages: the file that one names is there, and so is the heading or the named place in it.

What a page writes as code, as `tests/run` or `docs/GATE.md`, has to be there too if it begins with one of the folders below.
"""
from __future__ import annotations

import functools
import posixpath
import re
from collections import Counter
from collections.abc import Iterator
from urllib.parse import unquote

from suite.checks.tree import Tree

FENCE = re.compile(r"^ *(```|~~~).*?^ *\1[^\n]*$", re.DOTALL | re.MULTILINE)
CODE = re.compile(r"(`+)(?P<code>.+?)\1", re.DOTALL)
LINK = re.compile(r"\]\(\s*<?(?P<target>[^()\s>]*)>?(?:\s+\"[^\"]*\")?\s*\)|^ *\[[^\]]+\]:\s*(?P<named>\S+)", re.MULTILINE)
HEADING = re.compile(r"^#{1,6} +(?P<text>.*?) *#*$", re.MULTILINE)
ANCHOR = re.compile(r"<a (?:id|name)=\"([^\"]+)\"")
OUTSIDE = re.compile(r"[a-z][a-z0-9+.-]*:", re.IGNORECASE)
# Paths in code, and in comments of programs, that have to be there.
NAMED_PATH = re.compile(r"(?<![\w./-])(?P<path>(?:tools|tests|bench|docs)/[\w./-]*\w)")
# Pages that tell of the past name programs as they were called then.
PAST = {"CHANGELOG.md", "docs/BENCHMARKS.md"}
# What has no file: names that stand for any of several.
ANY = re.compile(r"[A-Z]{3,}$|\*|NAME")


def slug(heading: str) -> str:
    """The anchor of a heading, as forges make it."""
    text = re.sub(r"\[([^\]]*)\]\([^)]*\)", r"\1", heading).replace("`", "").replace("*", "").lower()
    return re.sub(r"[^\w\- ]", "", text).replace(" ", "-")


def anchors(text: str) -> set[str]:
    """All anchors of a page; of headings with one text the second has `-1` at its end, and so on."""
    found, seen = set(ANCHOR.findall(text)), Counter[str]()
    for match in HEADING.finditer(FENCE.sub("", text)):
        name = slug(match["text"])
        found.add(f"{name}-{seen[name]}" if seen[name] else name)
        seen[name] += 1
    return found


class Pages:
    """The pages of a tree."""

    def __init__(self, tree: Tree) -> None:
        self.tree = tree
        self.names = tree.matching("*.md")
        self.folders = {folder for name in tree.files for folder in parents(name)}

    @functools.cache
    def anchors(self, name: str) -> set[str]:
        return anchors(self.tree.text(name))

    def faults(self, name: str) -> Iterator[str]:
        """What is wrong with a page's links."""
        text = FENCE.sub("", self.tree.text(name))
        for match in LINK.finditer(CODE.sub("", text)):
            yield from self.fault(name, match["target"] or match["named"] or "")
        for code in CODE.finditer(text if name not in PAST else ""):
            for path in NAMED_PATH.finditer(code["code"]):
                if not ANY.search(path["path"]) and not self.is_there(name, path["path"]):
                    yield f"{name}: `{path['path']}` is not there"

    def is_there(self, page: str, path: str) -> bool:
        """Whether a path that is written as code is there: from the top, or from the client that the page is of."""
        of_client = re.match(r"clients/\w+/", page)
        return any(self.tree.has(root + path) or root + path in self.folders or bool(self.tree.matching(f"{root}{path}.*"))
                   for root in ["", *([of_client.group()] if of_client else [])])

    def fault(self, page: str, target: str) -> Iterator[str]:
        """What is wrong with one link: nothing, or one sentence."""
        if OUTSIDE.match(target):
            return
        path, _, anchor = unquote(target).partition("#")
        name = posixpath.normpath(posixpath.join(posixpath.dirname(page), path)) if path else page
        if not self.tree.has(name) and name not in self.folders:
            yield f"{page}: ({target}) leads to {name}, which is not there"
        elif anchor and name.endswith(".md") and anchor not in self.anchors(name):
            yield f"{page}: ({target}) leads to a heading that {name} has not"


def parents(name: str) -> Iterator[str]:
    """The folders that a file is in."""
    while name := posixpath.dirname(name):
        yield name


def check(tree: Tree) -> tuple[int, list[str]]:
    """How many links the pages have, and which of them lead nowhere."""
    pages = Pages(tree)
    count = sum(len(LINK.findall(CODE.sub("", FENCE.sub("", tree.text(name))))) for name in pages.names)
    return count, [fault for name in pages.names for fault in pages.faults(name)]
