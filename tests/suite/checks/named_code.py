"""What pages name of the crates is there: files, and the functions in them.

- A row of a table with the columns File and Functions names a file of `crates/`, and functions that it defines.
- A row of a table with the columns Crate and Where to look first names a crate, and files of it. Such a table has each
  crate of crates.txt.
- What any page writes as code and begins with the name of a crate and a slash is a file or a folder there, or a pattern
  of some.
"""
from __future__ import annotations

import re
from collections.abc import Iterator

from suite.checks.links import CODE, FENCE, PAST
from suite.checks.tree import Tree

Row = dict[str, str]
LIST = "crates.txt"
SEPARATOR = re.compile(r"^\|(?:\s*:?-+:?\s*\|)+$")
CELLS = re.compile(r"(?<!\\)\|")
PATH = re.compile(r"(?P<crate>\w+)/[\w./*-]*\w")


def cells(line: str) -> list[str]:
    """The cells of a row; a pipe in one has a backslash before it."""
    return [cell.strip() for cell in CELLS.split(line.strip().strip("|"))]


def tables(text: str) -> Iterator[list[Row]]:
    """The tables of a page: for each its rows, by the heads of the columns."""
    lines = FENCE.sub("", text).splitlines()
    for number, line in enumerate(lines):
        if number and SEPARATOR.match(line):
            heads, found = cells(lines[number - 1]), []
            for row in lines[number + 1:]:
                if not row.startswith("|"):
                    break
                found.append(dict(zip(heads, cells(row))))
            yield found


def codes(cell: str) -> list[str]:
    """What is written as code, in its order."""
    return [match["code"] for match in CODE.finditer(cell)]


def defines(source: str, function: str) -> bool:
    """Whether a source defines a function, which may be written with its type before it."""
    name = re.escape(function.removesuffix("()").rpartition("::")[2])
    return re.search(rf"\bfn {name}\b", source) is not None


def function_faults(tree: Tree, page: str, row: Row) -> Iterator[str]:
    """What is wrong with a row that names a file and its functions."""
    files, functions = codes(row.get("File", "")), codes(row.get("Functions", ""))
    if len(files) != 1 or not functions:
        yield f"{page}: a row names {len(files)} files and {len(functions)} functions: {' | '.join(row.values())}"
        return
    path = f"crates/{files[0]}"
    if not tree.has(path):
        yield f"{page}: {path} is not there"
        return
    source = tree.text(path)
    yield from (f"{page}: {path} has no function {name}" for name in functions if not defines(source, name))


def crate_faults(tree: Tree, page: str, rows: list[Row]) -> Iterator[str]:
    """What is wrong with a table of crates."""
    named = [name for row in rows for name in codes(row["Crate"])]
    listed = re.findall(r"^(\w+)[^:\n#]*:", tree.text(LIST), re.MULTILINE) if tree.has(LIST) else named
    yield from (f"{page}: the table of crates lacks {name}" for name in listed if name not in named)
    yield from (f"{page}: {name} is no crate of {LIST}" for name in named if name not in listed)
    for row in rows:
        for path in codes(row.get("Where to look first", "")):
            if not any(tree.has(f"crates/{name}/{path}") for name in codes(row["Crate"])):
                yield f"{page}: {path} is not there in {row['Crate']}"


def path_faults(tree: Tree, page: str, crates: set[str]) -> Iterator[str]:
    """The paths from a crate's name on, written as code, of which nothing is there."""
    for code in codes(FENCE.sub("", tree.text(page))):
        path = PATH.fullmatch(code.rstrip("/"))
        if path and path["crate"] in crates and not tree.matching(f"crates/{path.group()}", f"crates/{path.group()}/*"):
            yield f"{page}: `{code}` is not there in crates/"


def check(tree: Tree) -> tuple[int, list[str]]:
    """How many rows of such tables there are, and what is wrong with the pages."""
    crates = {name.split("/")[1] for name in tree.matching("crates/*/*")}
    count, faults = 0, []
    for page in tree.matching("*.md"):
        for rows in tables(tree.text(page)):
            if rows and {"File", "Functions"} <= rows[0].keys():
                count += len(rows)
                faults += [fault for row in rows for fault in function_faults(tree, page, row)]
            if rows and {"Crate", "Where to look first"} <= rows[0].keys():
                count += len(rows)
                faults += crate_faults(tree, page, rows)
        if page not in PAST and not page.startswith("docs/notes/"):
            faults += path_faults(tree, page, crates)
    return count, faults
