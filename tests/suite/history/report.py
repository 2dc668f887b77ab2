"""What is told of a history: whether it is legal, in which order, and what no order explains."""
import typing

from suite.history.board import Boards
from suite.history.calls import Call, History, Wrong, history_of
from suite.history.search import MOST_STATES, Verdict, decide
from suite.history.tasks import Members, line_of

MOST_SHOWN = 40  # characters of a text


class Report(typing.NamedTuple):
    """Whether a history is legal (None: the search was given up), and what is told of it, line by line."""
    is_legal: bool | None
    lines: list[str]


def short(members: Members) -> str:
    """A line in which configs, modules and other long texts are cut."""
    return line_of({key: value[:MOST_SHOWN] + ".." if isinstance(value, str) and len(value) > MOST_SHOWN else value
                    for key, value in members.items()})


def told(call: Call) -> str:
    return f"{short(call.request)} -> {short(call.reply)}"


def order_lines(history: History, order: list[int]) -> list[str]:
    """Caller, line, request and reply of the calls, in an order."""
    positions, lines = [0] * len(history.callers), []
    for caller in order:
        at = positions[caller]
        lines.append(f"{caller + 1} {history.lines[caller][at] + 1} {told(history.call(caller, at))}")
        positions[caller] += 1
    return lines


def stuck_lines(history: History, boards: Boards, verdict: Verdict) -> list[str]:
    """The next calls after the longest beginning that was explained, and what the board would answer them; and the
    calls that no order reaches."""
    lines = []
    for caller, calls in enumerate(history.callers):
        at = verdict.order.count(caller)
        if at < len(calls):
            call = history.call(caller, at)
            lines.append(f"  caller {caller + 1}, line {history.lines[caller][at] + 1}: {told(call)}")
            found = boards.could_answer(verdict.board, call)
            lines.append(f"    the board answers {' or '.join(found) or 'nothing yet'}")
    for caller, calls in enumerate(history.callers):
        at = verdict.reached[caller]
        if verdict.is_legal is False and at < len(calls):
            lines.append(f"no order explains caller {caller + 1}, line {history.lines[caller][at] + 1}: "
                         f"{told(history.call(caller, at))}")
    return lines


def report(scripts: typing.Sequence[bytes], printed: bytes, modules: dict[str, bytes] | None = None,
           has_order: bool = False, most: int = MOST_STATES, rounds: typing.Sequence[typing.Sequence[int]] = ()) -> Report:
    """Decides the history of callers with these scripts, by what `serve` printed. Where it is known that the callers went
    on in rounds, for each but the last the lines of each caller that came before its end."""
    try:
        history = history_of(scripts, printed)
        ends = [[history.position(caller, line) for caller, line in enumerate(lines)] for lines in rounds]
        verdict, boards = decide(history, modules, most, ends)
    except Wrong as wrong:
        return Report(False, [f"not legal: {wrong}"])
    count = sum(map(len, history.callers))
    counts = f"{count} calls of {len(history.callers)} callers, {verdict.states} states"
    shown = order_lines(history, verdict.order) if has_order else []
    if verdict.is_legal:
        return Report(True, [f"legal: {counts}", *shown])
    word = "not decided" if verdict.is_legal is None else "not legal"
    explained = f"{len(verdict.order)} calls are explained, and after them"
    return Report(verdict.is_legal, [f"{word}: {counts}", *shown, explained, *stuck_lines(history, boards, verdict)])
