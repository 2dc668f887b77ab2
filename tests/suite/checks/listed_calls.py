"""Calls that no clause keeps where they belong, each with its reason.

A task that is turned into a plain ticket can be forgotten, a seat more makes calls that nobody asked for, a shim that is
closed refuses all that follows, a slice that runs under a lock holds up all others, who sleeps and is not woken waits for
ever, workers may be fewer than were asked for, and the turns of a slice more, room that is asked for is memory, memory that
is let go of and not freed is lost, a single write may write a part, and an end that is told twice is wrong. Where what is
shared is copied, or what nobody uses is kept, all answers stay as they are and cost more. No contract says where these calls
may be made, and with what, and code that makes another one is proved as before. So each place that makes one is in a list,
tests/listed_calls.txt, with the reason for it, and the check fails where the sources and the list differ.
In the crates of threads the list also has the condition that a place is under, if it begins on a line before.

What is told after the end, or before a change, is told in vain. So a second list, tests/call_order.txt, has the order in which
a function of those crates makes several such calls.
"""
from __future__ import annotations

import re
from collections import Counter
from collections.abc import Collection, Iterator

from suite.checks.memory_words import NAMED, Place, condition_of, differences, functions_of, listed
from suite.checks.tree import Tree
from suite.checks.values import Source, blanked, renamed

LIST, ORDER = "tests/listed_calls.txt", "tests/call_order.txt"
SOURCES = "crates/*/src/*.rt"
# Calls of any crate but those of tests: what asks for room of a size, and what lets go of memory and does not free it.
ROOM = re.compile(r"(?<!fn )\b(?:with_capacity(?:_and_hasher)?|allocate|from_elem|(?:try_)?reserve(?:_exact)?"
                  r"|resize(?:_with)?|repeat)\(|\bvec!\[in\b")
LEFT = re.compile(r"(?<!fn )\b(?:forget|leak|into_raw(?:_parts|_with_allocator)?|ManuallyDrop)\b")
# What shares memory, drops what nobody uses, or shows all frames; what is sorted, so that it is found fast; and arrays, which
# lie on a thread's stack. In wasm_shim, what becomes of scripts: replies are kept only where there are several.
SHARED = re.compile(r"\.(?:share|into_arc|sort_unstable|drop_idle|keep_used|keep_stored)\(|\bArc::try_clone\("
                    r"|(?<!fn )\binspect\(|\bArray(?:String|Vec)<|\bWork::(?:Scripts|Stream|Live)\b")
# Calls of the crates that read and write files, standard streams and the log without a clause: a single write may take a part
# only, and a read that is left out, or whose error is, loses what comes.
WRITES = re.compile(r"\.(?:write(?:_all|_fmt|_vectored)?|read(?:_to_end|_exact|_to_string)?|strip_suffix)\(")
WITH_WRITES = re.compile(r"crates/(?:serve_command|shim_log|wasm_shim)/")
# Calls of the crates of threads: what lets go of a task, closes a shim, hands out a seat, sets workers to work, takes a lock,
# makes a call under it, sleeps, wakes, waits for a thread, gives the next task or line, lends a machine, runs it, takes it
# back, or tells an end. After the name of a type it is a call too, or a function that is handed on.
OF_VALUES = (r"(?:into_ticket|close|seat|lock|take|run|slice|wait_while|wait_timeout_while|notify_one|notify_all|tell_worker"
             r"|tell_callers|tell_settled|wake|call_due|join|next|next_waiting|leave_waiting|take_waiting|wait_again|give_back"
             r"|receive|ended|lines_ended|report)\b")
HANDS = re.compile(rf"\.{OF_VALUES}\(|::{OF_VALUES}(?!::\w)|\bRunnable\b[^\s(,;]*::of\b"
                   r"|\bbook\.call\(|\bBook\b[^\s(,;]*::call\b|\bflight\.(?:enter|leave|end)\(|\bnotes\.note\("
                   r"|(?<!fn )\b(?:worker|with_workers|with_gated_workers|with_workers_of|serve|run_waiting|take_waiting"
                   r"|run_slice|drive|tell_killed|join_promised|spare_memory)\(")
WITH_HANDS = re.compile(r"crates/(?:call_journal|callers|slice_workers|serve_command|wasm_shim)/")
# The type whose function makes a task of a ticket: under another name it is not seen.
HANDED = {"Runnable"}
# What numbers are called that are handed on from the command line to the threads: of workers, and of the turns of a slice; and
# those of who sleeps, of replies that are being written, and where a worker looks first.
NUMBERS = {"wasm_shim": "workers", "serve_command": "workers", "slice_workers": "count|budget|queue_first",
           "call_journal": "budget|workers|callers", "callers": "answering"}
BOUND = re.compile(r"\blet\s+(?:mut\s+)?\Z")
OF_TESTS = re.compile(r"crates/test_")
CONSTANT = re.compile(r"\b[A-Z][A-Z_]+\b")


def calls_in(path: str, code: str) -> list[int]:
    """Where code makes such calls, as often as it does."""
    calls = [ROOM, LEFT, SHARED, *([HANDS] if WITH_HANDS.match(path) else []), *([WRITES] if WITH_WRITES.match(path) else [])]
    return [match.start() for call in calls for match in call.finditer(code)]


def orders_in(path: str, text: str) -> Iterator[str]:
    """The functions of a file of the crates of threads that make several such calls, each with their order: a line each."""
    if not WITH_HANDS.match(path):
        return
    code, orders = blanked(text), dict[str, list[str]]()
    functions = list(functions_of(code))
    for match in sorted((match for call in (HANDS, WRITES) for match in call.finditer(code)), key=lambda match: match.start()):
        name = re.findall(r"\w+", match[0])[-1]
        orders.setdefault(functions[code.count("\n", 0, match.start())], []).append(name)
    for function, names in orders.items():
        if len(names) > 1:
            yield f"{path} {function} {' '.join(names)}"


def order_faults(tree: Tree) -> tuple[int, list[str]]:
    """How many functions make several such calls, and where their orders and the list of orders differ."""
    found = {line for path in tree.matching(SOURCES) if not OF_TESTS.match(path) for line in orders_in(path, tree.text(path))}
    given = {line for line in (tree.text(ORDER) if tree.has(ORDER) else "").splitlines() if line and not line.startswith("#")}
    return len(found), [
        *(f"{line}: {ORDER} has not this order of calls: if it is right, add the line" for line in sorted(found - given)),
        *(f"{line}: calls are not made in this order: remove the line from {ORDER}" for line in sorted(given - found))]


def is_listed(path: str, name: str) -> bool:
    """Whether what has this name is listed where it is called."""
    return bool(calls_in(path, f"{name}(") or calls_in(path, f".{name}(")) or (name in HANDED and bool(WITH_HANDS.match(path)))


def numbers_in(path: str, source: Source) -> Iterator[int]:
    """Where a number is used that is handed on, and where there is a new one of its name."""
    name = NUMBERS.get(path.split("/")[1])
    if name is None:
        return
    unmade = list(source.stretches())
    for match in re.finditer(rf"(?<!mod )\b(?:{name})\b", source.code):
        at = match.start()
        if BOUND.search(source.code, max(0, at - 20), at) or not any(begin <= at < end for begin, end in unmade):
            yield at


def constants_in(path: str, text: str) -> set[str]:
    """The constants that the calls of a file are made with."""
    return {name for code in blanked(text).split("\n") if calls_in(path, code) for name in CONSTANT.findall(code)}


def places_in(path: str, text: str, constants: Collection[str] = ()) -> Iterator[Place]:
    """Each place of a file where such a call is made, as often as it is, or is given another name, each where such a number is
    handed on, and each of these constants that it has."""
    source, code = Source(text), blanked(text)
    names = [at for at, name in renamed(text) if is_listed(path, name)]
    functions, lines = list(functions_of(code)), text.split("\n")
    for at in [*calls_in(path, code), *names, *numbers_in(path, source)]:
        number = text.count("\n", 0, at)
        under = condition_of(source, text, at) if WITH_HANDS.match(path) else ""
        yield Place(path, functions[number], lines[number].strip() + under)
    for line, blank in zip(lines, code.split("\n")):
        found = NAMED.search(blank)
        if found and found[2] in constants:
            yield Place(path, found[2], line.strip())


def found_in(tree: Tree) -> Counter[Place]:
    """All places. A constant counts where a call of any crate is made with one of its name."""
    texts = {path: tree.text(path) for path in tree.matching(SOURCES) if not OF_TESTS.match(path)}
    constants = {name for path, text in texts.items() for name in constants_in(path, text)}
    return Counter(place for path, text in texts.items() for place in places_in(path, text, constants))


def check(tree: Tree) -> tuple[int, list[str]]:
    """How many places there are, and where the list and the sources differ."""
    found = found_in(tree)
    given, faults = listed(tree.text(LIST) if tree.has(LIST) else "", LIST)
    count, orders = order_faults(tree)
    return found.total() + count, [
        *faults, *differences(found, given, LIST, "such a call is made here", "add a line with the reason"), *orders]
