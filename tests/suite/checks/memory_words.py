"""Places where an answer that may come without a cause is written by hand, each with its reason.

An allocation that is refused answers "out of memory" by itself, through `?` and `From`. Wherever code makes this answer by
hand, it says so of something else, or hides what it was. Others can be made without a cause too, and the code is proved as
the answers `Closed`, `JournalFull` and `JournalFault`, the error `NoThread`, the texts that say why the program ended,
that an output of a `run` has failed, and in the crates of threads `None`: no task, no seat, no caller. There `?` makes one
too, in a function that answers an Option. A function that makes the answer by hand can be called with what makes it.
So each place that makes one of all these is in a list, tests/memory_words.txt, with the reason for it, and the check fails
where the sources and the list differ. Where a place's own line has no condition, the list also has the one that it is under.
"""
from __future__ import annotations

import re
from collections import Counter
from collections.abc import Iterator
from dataclasses import dataclass

from suite.checks.tree import Tree
from suite.checks.values import Source, renamed

LIST = "tests/memory_words.txt"
SOURCES = "crates/*/src/*.rt"
# Errors of memory, and after them refusals, the error of threads, and texts of `serve`.
WORD = re.compile(r"(?:\b(?P<of>[A-Z]\w*)::)?(?<![\w.])(?P<word>AllocError|NoMemory|OutOfMemory|Memory"
                  r"|Closed|JournalFull|JournalFault|NoThread|OUT_OF_MEMORY|NO_SEAT)\b")
# That an output of a `run` has failed.
FAILED, FAILING = re.compile(r"\bRunError::Standard(?:Output|Error)\b"), re.compile(r"crates/file_commands/")
# Functions that answer out of memory by hand, of a number that is too large, by the files that call them.
LARGE = {"file_commands/src/check.rt": "next", "flat_code/src/": "sum|narrow|narrow_to_byte",
         "label_machine/src/numbered.rt": "number"}
# Nothing, in the crates of threads.
NOTHING = re.compile(r"(?:(?<![\w.:])|\bOption(?:::<[^()]*>)?::)None\b")
# A function that answers an Option, up to its body, and what may end it without a value.
OF_OPTION, ENDS = re.compile(r"\bfn \w+[^{;]*?-> Option<"), re.compile(r"\?(?=[;.,)\s])")
OF_THREADS = re.compile(r"crates/(?:call_journal|callers|slice_workers|serve_command|wasm_shim)/")
# What says why the program ended, and the crates that do.
SAYS, SAYING = re.compile(r"\b(?:stream_)?failed\("), re.compile(r"crates/(?:serve_command|wasm_shim)/")
# What a place is named by: a function, or a constant at the margin.
NAMED = re.compile(r"\bfn (\w+)|^(?:pub(?:\(\w+\))? )?(?:const|static) (\w+)")
# Kinds of things that are a memory, and no error.
THINGS = {"ExportKind", "Item", "Field"}
# What stands before a word that is compared, and after the last type of a list of types.
COMPARED, LAST_TYPE = re.compile(r"[!=]=\s*\Z"), re.compile(r"\s*,?\s*>")


@dataclass(frozen=True, order=True)
class Place:
    """Where the answer is written: the file, the function, and the text of the line, with the condition that it is under."""
    path: str
    function: str
    text: str

    def __str__(self) -> str:
        return f"{self.path} {self.function}: {self.text}"


def is_made(code: str, match: re.Match[str]) -> bool:
    """Whether a word, where code makes values, is one: not one that is compared, a type, or a thing."""
    if COMPARED.search(code, max(0, match.start() - 80), match.start()):
        return False
    if match.re in (NOTHING, FAILED):
        return True
    return match["of"] not in THINGS and (match["word"] != "AllocError" or not LAST_TYPE.match(code, match.end()))


def said_in(source: Source, text: str) -> Iterator[int]:
    """Where the program is said to end for a reason that is written there as a text."""
    for match in SAYS.finditer(source.code):
        if '"' in text[match.end():source.partner.get(match.end() - 1, match.end())]:
            yield match.start()


def ended_in(code: str) -> Iterator[int]:
    """Where `?` may end a function that answers an Option."""
    begins = [match.start() for match in re.finditer(r"\bfn \w+", code)]
    for begin, end in zip(begins, [*begins[1:], len(code)]):
        if OF_OPTION.match(code, begin, end):
            yield from (match.start() for match in ENDS.finditer(code, code.find("{", begin), end))


def large_in(path: str, code: str) -> Iterator[int]:
    """Where code calls a function that answers out of memory of a number that is too large."""
    for begin, names in LARGE.items():
        if path.startswith(f"crates/{begin}"):
            yield from (match.start() for match in re.finditer(rf"(?<![\w.:])(?<!fn )(?:{names})\(", code))


def made_in(path: str, source: Source, text: str) -> list[int]:
    """Where code makes the answer, as often as it does."""
    words = [WORD, NOTHING] if OF_THREADS.match(path) else [WORD, *([FAILED] if FAILING.match(path) else [])]
    found = [match.start() for word in words for match in word.finditer(source.code) if is_made(source.code, match)]
    unmade = list(source.stretches()) if found else []
    made = [at for at in found if not any(begin <= at < end for begin, end in unmade)]
    return [*made, *(said_in(source, text) if SAYING.match(path) else []),
            *(ended_in(source.code) if OF_THREADS.match(path) else []), *large_in(path, source.code)]


def functions_of(code: str) -> Iterator[str]:
    """The function of each line."""
    function = "none"
    for line in code.split("\n"):
        found = NAMED.search(line)
        function = found[1] or found[2] if found else function
        yield function


def condition_of(source: Source, text: str, at: int) -> str:
    """The condition that a place is under, if it begins on a line before."""
    begin, end = source.condition(at) or (at, at)
    return f" under {' '.join(text[begin:end].split())}" if "\n" in text[begin:at] else ""


def places_in(path: str, text: str) -> Iterator[Place]:
    """Each place of a file where the answer is made, as often as it is, or is given another name."""
    source = Source(text)
    names = [at for at, name in renamed(text) if WORD.fullmatch(name)]
    functions, lines = list(functions_of(source.code)), text.split("\n")
    for at in [*made_in(path, source, text), *names]:
        number = text.count("\n", 0, at)
        yield Place(path, functions[number], lines[number].strip() + condition_of(source, text, at))


def found_in(tree: Tree) -> Counter[Place]:
    return Counter(place for path in tree.matching(SOURCES) for place in places_in(path, tree.text(path)))


def listed(text: str, name: str) -> tuple[Counter[Place], list[str]]:
    """The places of a list, and what is wrong with the list itself, which has this name.

    The list is blocks with an empty line between two: lines that begin with `#`, of the reason, and after them a line for each
    place: the path, the function, how often, and the text, with the condition."""
    places: Counter[Place] = Counter()
    faults = []
    for block in re.split(r"\n\s*\n", text):
        lines = block.strip().splitlines()
        rows = [line for line in lines if not line.startswith("#")]
        reason = " ".join(line.removeprefix("#").strip() for line in lines if line.startswith("#")).strip()
        for row in rows:
            words = row.split(maxsplit=3)
            if len(words) != 4 or not words[2].isdigit():
                faults.append(f"{name}: not a line of the form PATH FUNCTION COUNT TEXT: {row}")
                continue
            places[Place(words[0], words[1], words[3])] += int(words[2])
        if rows and len(reason.split()) < 4:
            faults.append(f"{name}: no reason is given for: {rows[0]}")
    return places, faults


def differences(found: Counter[Place], given: Counter[Place], name: str, said: str, advice: str) -> list[str]:
    """Where what the sources have and the list of this name differ: `said` of a place that the list lacks, and what to do."""
    faults = []
    for place in sorted(found.keys() | given.keys()):
        if found[place] > given[place]:
            faults.append(f"{place}: {said} {found[place]} times, and {name} gives a reason for {given[place]}: {advice}")
        elif found[place] < given[place]:
            faults.append(f"{place}: {name} has this {given[place]} times, and it is there {found[place]} times: remove it "
                          "from the list")
    return faults


def check(tree: Tree) -> tuple[int, list[str]]:
    """How many places there are, and where the list and the sources differ."""
    found = found_in(tree)
    given, faults = listed(tree.text(LIST) if tree.has(LIST) else "", LIST)
    return found.total(), faults + differences(found, given, LIST, "this is answered by hand here",
                                               "use `?`, or add a line with the reason")
