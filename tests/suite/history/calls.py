"""What several callers of `serve SCRIPT..` sent and were answered, and what can be said of it call by call."""
import bisect
import hashlib
import json
import typing

from suite.history.tasks import Members, line_of, refusal
from suite.reference.board import MOST_LINE, NoJson, parse, request_of

MOST_ENTRIES = 16_384
Told = tuple[bytes, bytes]  # a line and its reply


class Wrong(Exception):
    """What no board answers, whatever else was called: why, with the caller and the line, both from 0."""

    def __init__(self, why: str, caller: int | None = None, line: int | None = None) -> None:
        place = "" if caller is None or line is None else f"caller {caller + 1}, line {line + 1}: "
        super().__init__(place + why)


class Call(typing.NamedTuple):
    """A request that was answered, and is an entry of the history."""
    request: Members
    reply: Members


class History(typing.NamedTuple):
    """The calls of each caller in its order, as numbers in the table; and the lines, from 0, that they were."""
    table: list[Call]
    callers: list[list[int]]
    lines: list[list[int]]

    def call(self, caller: int, position: int) -> Call:
        return self.table[self.callers[caller][position]]

    def position(self, caller: int, line: int) -> int:
        """How many calls of a caller come before a line."""
        return bisect.bisect_left(self.lines[caller], line)

    def digests(self) -> dict[str, str]:
        """The digests of texts, by the replies to puts of them."""
        found: dict[str, str] = {}
        for request, reply in self.table:
            if request["op"] == "put_text" and reply["ok"] is True:
                digest = found.setdefault(request["text"], str(reply.get("digest")))
                if digest != reply.get("digest"):
                    raise Wrong(f"one text is stored under two digests: {digest} and {reply.get('digest')}")
        return found

    def modules(self) -> dict[str, bytes]:
        """The bytes of contents, by the requests that put them."""
        puts = [bytes.fromhex(request["hex"]) for request, _ in self.table if request["op"] == "put"]
        return {"sha256:" + hashlib.sha256(data).hexdigest(): data for data in puts}


def request_in(line: bytes) -> Members | None:
    """The request that a line is, if it is one."""
    try:
        value = parse(line.decode("utf-8"))
    except (UnicodeDecodeError, NoJson):
        return None
    if len(line) <= MOST_LINE and isinstance(value, dict) and value.get("op") == "put_text":
        return value if set(value) == {"op", "text"} and isinstance(value["text"], str) else None
    found: Members | None = request_of(line, False)
    return found


def reply_in(line: bytes) -> Members | None:
    """The reply that a line is, if it is written as replies are."""
    try:
        value = json.loads(line)
    except ValueError:
        return None
    if not isinstance(value, dict) or type(value.get("ok")) is not bool or line_of(value).encode() != line:
        return None
    return value


def lines_in(data: bytes) -> list[bytes]:
    """The lines of a script or of what was printed; the last one needs no line feed."""
    found = data.split(b"\n")
    return found[:-1] if found[-1] == b"" else found


def history_of(scripts: typing.Sequence[bytes], printed: bytes) -> History:
    """The history of callers with these scripts, by what `serve` printed: a line for each of theirs, caller by
    caller."""
    lines, replies = [lines_in(script) for script in scripts], lines_in(printed)
    if sum(map(len, lines)) != len(replies):
        raise Wrong(f"{sum(map(len, lines))} lines were sent, and {len(replies)} replies are there")
    found, known, at, is_full = History([], [], []), dict[Told, int](), 0, False
    for caller, sent in enumerate(lines):
        found.callers.append([])
        found.lines.append([])
        is_full |= add_caller(found, known, caller, list(zip(sent, replies[at:at + len(sent)])))
        at += len(sent)
    count = sum(map(len, found.callers))
    if count > MOST_ENTRIES or is_full and count < MOST_ENTRIES:
        raise Wrong(f"{count} calls were answered, and {'some' if is_full else 'none'} were refused 15")
    return found


def add_caller(found: History, known: dict[Told, int], caller: int, told: list[Told]) -> bool:
    """Adds the calls of a caller. Whether one was refused 15, after which no other is answered."""
    is_full = False
    for line, pair in enumerate(told):
        number = known.get(pair)
        if number is None:
            call = call_of(*pair, caller, line)
            if call is None:
                is_full |= reply_in(pair[1]) == refusal(15)
                continue
            known[pair] = number = len(found.table)
            found.table.append(call)
        if is_full:
            raise Wrong("it comes after a 15", caller, line)
        found.callers[-1].append(number)
        found.lines[-1].append(line)
    return is_full


def call_of(line: bytes, answer: bytes, caller: int, number: int) -> Call | None:
    """The call that is an entry of the history. The others change nothing: a line that is no request, and what was
    refused 15 or 17."""
    request, reply = request_in(line), reply_in(answer)
    if reply is None:
        raise Wrong("this is no reply", caller, number)
    if reply == refusal(17):
        return None
    if (request is None) != (reply == refusal(1)):
        raise Wrong("1 is the answer to what is no request, and to nothing else", caller, number)
    return None if request is None or reply == refusal(15) else Call(request, reply)
