"""Trials of the checker of histories: right ones, wrong ones that were made on purpose, and random ones, about which
the second reading's board is asked by trying all orders."""
import copy
import json
import random
import typing

from suite.history.calls import History, Wrong, history_of
from suite.history.search import decide
from suite.history.tasks import line_of, refusal
from suite.history.written import history_as, request_as
from suite.reference.board import Board

PUT = ["put endless -> stored", "create x endless -> created"]
RUNS = [*PUT, "start x -> running"]
SHORT_RUNS = ["put short -> stored", "create x short -> created", "start x -> running"]
RIGHT: dict[str, list[list[str]]] = {
    # Two callers, of whom A makes and ends a task, and B makes and looks at one of the same id, in four orders.
    "all of A, then all of B": [
        [*PUT, "kill x -> stopped", "delete x -> killed 0"], ["create x endless -> created", "state x -> created 0"]],
    "all of B between A's put and its create": [
        ["put endless -> stored", "create x endless -> 3", "kill x -> stopped", "delete x -> killed 0"],
        ["create x endless -> created", "state x -> created 0"]],
    "all of B between A's kill and its delete": [
        [*PUT, "kill x -> stopped", "delete x -> killed 0"], ["create x endless -> 3", "state x -> killed 0"]],
    "A's delete between B's calls": [
        [*PUT, "kill x -> stopped", "delete x -> killed 0"], ["create x endless -> 3", "state x -> 4"]],
    # What slices may have done meanwhile.
    "a kill while a slice is out": [[*RUNS, "kill x -> running", "state x -> running 0", "wait x -> killed 10000"]],
    "a kill while no slice is out": [[*RUNS, "state x -> running 700", "kill x -> stopped", "delete x -> killed 700"]],
    "the first of two signals counts": [[*RUNS, "kill x 15 -> running", "kill x -> running", "wait x -> terminated 9"]],
    "a pause while a slice is out": [
        [*RUNS, "pause x -> pausing", "resume x -> 11", "state x -> pausing 5", "wait x -> paused 10005"],
        ["resume x -> running", "state x -> running 10005"]],
    "a kill of a task that is to be paused": [[*RUNS, "pause x -> pausing", "kill x -> pausing", "wait x -> killed 1"]],
    "a kill that would change nothing now ends the next task of the id": [
        [*RUNS, "pause x -> pausing", "kill x -> pausing", "wait x -> killed 5", "delete x -> killed 5",
         "create x endless -> created", "start x -> running", "pause x -> pausing", "wait x -> killed 7"],
        ["kill x -> pausing"]],
    "counts that two callers read in turn": [
        [*RUNS, "state x -> running 1", "state x -> running 30000"],
        ["state x -> running 20000", "state x -> running 40000"]],
    "a short task ends before a pause": [[*SHORT_RUNS, "pause x -> 11", "wait x -> returned 3"]],
    "a short task is paused, and stepped to its end": [
        [*SHORT_RUNS, "pause x -> paused", "step x 1 -> paused 2", "step x 9 -> returned 3", "step x 1 -> 11"]],
    "an output is not shown while a slice is out": [
        [*RUNS, "output x -> 12", "pause x -> paused", "output x -> wrote "]],
    "a breakpoint at the first instruction": [
        ["put short -> stored", "create x short -> created", "break x 0 0 -> done", "break x 0 0 -> 3",
         "break x 0 3 -> 13", "start x -> paused", "unbreak x 0 0 -> done", "resume x -> running",
         "wait x -> returned 3"]],
    "a module of which nothing is known": [
        ["put text -> stored", "create x text -> created", "start x -> running", "pause x -> paused",
         "output x -> wrote 61", "resume x -> running", "pause x -> 11", "output x -> wrote 6162",
         "delete x -> returned 12"],
        ["put text -> 3", "remove text -> 6"]],
}
WRONG: dict[str, list[list[str]]] = {
    "two creates of one id are accepted, and no delete": [PUT, ["create x endless -> created"]],
    "a kill is accepted of a task that was never created": [["put endless -> stored"], ["kill x -> stopped"]],
    "a state has an earlier count": [[*RUNS, "state x -> running 20000", "state x -> running 10000"]],
    "another caller's state has an earlier count than one before": [
        [*RUNS, "state x -> running 20000", "create y endless -> created"],
        ["state y -> created 0", "state x -> running 10000"]],
    "a delete is accepted while the task is running": [[*RUNS, "delete x -> killed 0"], ["state x -> running 0"]],
    "a task ends with no kill that never ends": [[*RUNS, "pause x -> 11"]],
    "a delete tells the end of a task that was not killed": [[*RUNS, "wait x -> killed 0"]],
    "two puts of one content are accepted": [["put endless -> stored"], ["put endless -> stored"]],
    "a content is removed that a task holds": [[*PUT, "remove endless -> removed", "state x -> created 0"]],
    "a create finds a content before it is put": [["create x short -> created", "put short -> stored"]],
    "two resumes after one pause": [[*RUNS, "pause x -> paused", "resume x -> running"], ["resume x -> running"]],
    "a paused task makes turns": [[*RUNS, "pause x -> paused", "state x -> paused 10", "state x -> paused 20"]],
    "the count changes while a slice is out": [
        [*RUNS, "pause x -> pausing", "state x -> pausing 10", "state x -> pausing 20"]],
    "a slice returns with no turn": [[*RUNS, "state x -> running 10", "pause x -> pausing", "wait x -> paused 10"]],
    "a slice makes more than 10,000 turns": [
        [*RUNS, "pause x -> pausing", "state x -> pausing 10", "wait x -> paused 10011"]],
    "a wait is answered while the task is running": [[*RUNS, "wait x -> running 5"]],
    "a killed task goes on": [[*RUNS, "kill x -> running", "wait x -> killed 9", "state x -> running 9"]],
    "a short task ends one turn too early": [[*SHORT_RUNS, "wait x -> returned 2"]],
    "a short task goes on beyond its end": [[*SHORT_RUNS, "state x -> running 3"]],
    "a task ends by a signal that came too late": [[*SHORT_RUNS, "kill x -> running", "wait x -> killed 3"]],
    "the last of two signals counts": [[*RUNS, "kill x 15 -> running", "kill x -> running", "wait x -> killed 9"]],
    "a step makes too few turns": [[*RUNS, "pause x -> paused", "state x -> paused 5", "step x 7 -> paused 11"]],
    "an output gets shorter": [
        ["put text -> stored", "create x text -> created", "start x -> running", "output x -> wrote 6162",
         "output x -> wrote 61"]],
    "a status is no status": [[*PUT, "start x -> runing"]],
    "a refusal of a malformed id": [[*PUT, "state x -> 2"]],
    "the journal is full too early": [[*PUT, "state x -> 15"]],
}


def is_legal(scripts: list[bytes], printed: bytes) -> bool:
    """Whether it is legal; the same must be found if the callers are said to go on in rounds, whatever these are."""
    try:
        history = history_of(scripts, printed)
        verdict, _ = decide(history)
        in_rounds, _ = decide(history, rounds=some_rounds(history))
    except Wrong:
        return False
    assert verdict.is_legal is not None and in_rounds.is_legal == verdict.is_legal
    return verdict.is_legal


def some_rounds(history: History) -> list[list[int]]:
    """Positions of all callers that rise from one to the next."""
    columns = [sorted(random.choices(range(len(calls) + 1), k=3)) for calls in history.callers]
    return [list(row) for row in zip(*columns)]


def edges() -> dict[str, tuple[bool, list[bytes], bytes]]:
    """Histories that the notation has no words for, with what they are."""
    scripts, printed = history_as([PUT, ["create y endless -> created", "kill y -> stopped"]])
    replies, (one, none) = printed.splitlines(True), history_as([["state x -> 4"]])
    bad, full, no_memory = (line_of(refusal(number)).encode() + b"\n" for number in (1, 15, 17))
    return {
        "two callers with their own replies": (True, scripts, printed),
        "each of two callers has the other's replies": (False, scripts, b"".join([*replies[2:], *replies[:2]])),
        "a reply is missing": (False, scripts, b"".join(replies[1:])),
        "a line that is no request is answered 1": (True, [b"nothing\n", *one], bad + none),
        "a line that is no request is answered 4": (False, [b"nothing\n", *one], none + none),
        "a request is answered 17": (True, [*one, *one], no_memory + none),
        "a full journal": (True, [one[0] * 16_385, one[0]], none * 16_384 + full * 2),
        "a full journal takes one more call": (False, [one[0] * 16_385, *one], none * 16_383 + full + none + full),
        "a journal takes too many calls": (False, [one[0] * 16_385], none * 16_385),
        "a reply with spaces": (False, one, none.replace(b",", b", ")),
    }


# ---- random histories

OPS = ["create x short", "start x", "pause x", "resume x", "kill x", "kill x 15", "delete x", "state x", "state x",
       "wait x", "output x", "step x 1", "step x 2", "inspect x", "create y short", "start y", "kill y", "delete y",
       "state y", "put short", "remove short"]
CREATED = ["put short", "create x short", "start x"]


def some_requests(count: int) -> list[bytes]:
    return [json.dumps(request_as(*words.split())).encode() for words in random.choices(OPS, k=count)]


def slices_of(board: Board) -> list[bytes]:
    """What may happen between two calls: takes and returns."""
    events = list[dict[str, typing.Any]]()
    for id, task in board.tasks.items():
        if task.out is not None:
            events.append({"op": "return", "id": id})
        elif task.status == "running":
            events += [{"op": "take", "id": id, "budget": budget} for budget in (1, 2, 3)]
    return [json.dumps(event).encode() for event in events]


def is_busy_wait(line: bytes, reply: bytes) -> bool:
    """A wait that is refused 12, as in a replay; `serve` answers it later."""
    return bool(json.loads(line)["op"] == "wait" and json.loads(reply).get("number") == 12)


def some_history() -> tuple[list[list[bytes]], list[list[bytes]]]:
    """Requests of two or three callers, and what the second reading's board answers in some order, with slices between.
    What then waits for ever is left out."""
    callers = [some_requests(random.randint(1, 4)) for _ in range(random.choice([2, 2, 3]))]
    callers[0] = [json.dumps(request_as(*words.split())).encode() for words in CREATED] + callers[0]
    board, replies = Board(True), [list[bytes]() for _ in callers]
    while True:
        slices = slices_of(board)
        turns = [at for at, lines in enumerate(callers) if len(replies[at]) < len(lines)]
        if not turns or slices and random.random() < 0.5:
            if not turns:
                break
            board.answer(random.choice(slices))
            continue
        at = random.choice(turns)
        line = callers[at][len(replies[at])]
        reply = board.answer(line)
        if not is_busy_wait(line, reply):
            replies[at].append(reply)
        elif not slices:
            break
    return [lines[:len(told)] for lines, told in zip(callers, replies)], replies


def bent(replies: list[list[bytes]]) -> list[list[bytes]]:
    """The replies with one of them changed, or two exchanged."""
    found = copy.deepcopy(replies)
    places = [(at, line) for at, told in enumerate(found) for line in range(len(told))]
    (at, line), (other, there) = random.choice(places), random.choice(places)
    reply = json.loads(found[at][line])
    if random.random() < 0.3 or not reply["ok"]:
        found[at][line], found[other][there] = found[other][there], found[at][line]
    elif "n" in reply and random.random() < 0.5:
        found[at][line] = line_of(reply | {"n": max(0, reply["n"] + random.choice([-1, 1]))}).encode()
    elif "status" in reply and "exit" not in reply:
        status = random.choice(["running", "paused", "pausing", "stopped"])
        found[at][line] = line_of(reply | {"status": status}).encode()
    else:
        number = random.choice([3, 4, 11, 12])
        names = {3: "Exists", 4: "NotFound", 11: "WrongStatus", 12: "Busy"}
        found[at][line] = line_of({"error": names[number], "number": number, "ok": False}).encode()
    return found


def forked(board: Board) -> Board:
    """A copy that shares what no event changes."""
    found = copy.copy(board)
    found.contents = dict(board.contents)
    found.tasks = {id: copy.copy(task) for id, task in board.tasks.items()}
    for task in found.tasks.values():
        task.machine = machine = copy.copy(task.machine)
        machine.frames = [copy.copy(frame) for frame in machine.frames]
        for frame in machine.frames:
            frame.operands, frame.labels = list(frame.operands), list(frame.labels)
    return found


def key_of(board: Board) -> tuple[object, ...]:
    tasks = [(id, task.status, task.turns, task.out, task.signal, str(task.end)) for id, task in board.tasks.items()]
    return tuple(sorted(tasks)), tuple(board.contents)


def has_order(callers: list[list[bytes]], replies: list[list[bytes]]) -> bool:
    """Whether some order of all calls, with some slices between them, has these replies: all are tried."""
    ends = [len(lines) for lines in callers]
    left, seen = [([0] * len(ends), Board(True))], set[typing.Any]()
    while left:
        positions, board = left.pop()
        if positions == ends:
            return True
        later: list[tuple[list[int], Board, bytes, bytes | None]] = [
            (positions, board, event, None) for event in slices_of(board)]
        for at, position in enumerate(positions):
            if position < ends[at]:
                moved = [place + (other == at) for other, place in enumerate(positions)]
                later.append((moved, board, callers[at][position], replies[at][position]))
        for moved, board, line, wanted in later:
            next_ = forked(board)
            if next_.answer(line) == wanted and not is_busy_wait(line, wanted) or wanted is None:
                key = (tuple(moved), key_of(next_))
                if key not in seen:
                    seen.add(key)
                    left.append((moved, next_))
    return False


def try_random(count: int) -> tuple[list[str], int, int]:
    """What was told wrongly, and how many histories were legal and not."""
    faults, legal, illegal = [], 0, 0
    for _ in range(count):
        callers, replies = some_history()
        for told in (replies, bent(replies)):
            wanted = told is replies or has_order(callers, told)
            legal, illegal = legal + wanted, illegal + (not wanted)
            scripts = [b"".join(line + b"\n" for line in lines) for lines in callers]
            printed = b"".join(reply + b"\n" for lines in told for reply in lines)
            if is_legal(scripts, printed) != wanted:
                faults.append(f"{'legal' if wanted else 'not legal'}: {scripts!r} {printed!r}")
    return faults, legal, illegal


def self_test(count: int, seed: int) -> tuple[list[str], dict[str, int]]:
    """The faults of the checker, and how many histories of each kind were tried."""
    random.seed(seed)
    faults = [f"refused: {name}" for name, callers in RIGHT.items() if not is_legal(*history_as(callers))]
    faults += [f"accepted: {name}" for name, callers in WRONG.items() if is_legal(*history_as(callers))]
    faults += [f"{'refused' if wanted else 'accepted'}: {name}" for name, (wanted, scripts, printed) in edges().items()
               if is_legal(scripts, printed) != wanted]
    told, legal, illegal = try_random(count)
    right = len(RIGHT) + sum(wanted for wanted, *_ in edges().values())
    wrong = len(RIGHT) + len(WRONG) + len(edges()) - right
    return faults + told, {"right": right, "wrong": wrong, "random and legal": legal, "random and not legal": illegal}
