"""A task as calls see it (docs/PROTOCOL.md, docs/definitions/task_board.md): in which ways it may stand, what each of
them answers a request, and what slices make of it between two calls."""
import json
import typing

from suite.history.courses import MOST_TURNS, Course
from suite.reference.board import MOST_BREAKS, MOST_PEEK, MOST_STEPS, NAMES

MOST_SLICE = 10_000  # turns of a slice in `serve`
UNKNOWN = "?"  # how a task has ended whose module is not known
TRAPS = {"unreachable", "integer divide by zero", "integer overflow", "out of bounds memory access",
         "undefined element", "uninitialized element", "indirect call type mismatch", "exhausted", "turn_limit"}
ERRORS = NAMES | {15: "JournalFull", 16: "DigestConflict", 17: "NoMemory", 18: "BadText", 19: "Closed",
                  20: "JournalFault"}
Members = dict[str, typing.Any]


class Standing(typing.NamedTuple):
    """A way in which a task may stand. `out`: a worker has a slice of it. `signal`: the pending one, or 0. `end`: how
    it has ended, as JSON. Its turns are at least and at most these."""
    status: str
    out: bool
    signal: int
    end: str
    least: int
    most: int

    def within(self, least: int, most: int) -> typing.Iterator["Standing"]:
        """The same with its turns in this range too, if any are."""
        found = self._replace(least=max(self.least, least), most=min(self.most, most))
        if found.least <= found.most:
            yield found


class Task(typing.NamedTuple):
    """All ways in which a task may stand. `seen`: what was read of its outputs, where its module is not known."""
    course: Course
    breaks: frozenset[tuple[int, int]]
    seen: tuple[str, str]
    standings: frozenset[Standing]


class Outcome(typing.NamedTuple):
    """What a standing answers, and what is left. A counted reply has also `n`, the turns of what is left; one that is a
    state has also how that has ended. The values of the open keys are not looked at."""
    reply: Members
    left: Standing
    is_counted: bool = False
    is_state: bool = False
    is_removed: bool = False
    open: tuple[str, ...] = ()


Outcomes = typing.Iterator[Outcome]


def refusal(number: int) -> Members:
    return {"error": ERRORS[number], "number": number, "ok": False}


def refused(number: int, at: Standing) -> Outcome:
    return Outcome(refusal(number), at)


def line_of(value: object) -> str:
    return json.dumps(value, separators=(",", ":"), sort_keys=True)


def created(course: Course) -> Task:
    return Task(course, frozenset(), ("", ""), frozenset([Standing("created", False, 0, "", 0, 0)]))


# ---- slices


def landed(task: Task, at: Standing, least: int, most: int) -> typing.Iterator[Standing]:
    """A task idle again with turns in this range: its own end comes first, then a signal, then what pauses it."""
    course = task.course
    if course.ends_at is not None:
        yield from Standing("stopped", False, 0, course.end, course.ends_at, course.ends_at).within(least, most)
    elif not course.goes_on:
        yield from Standing("stopped", False, 0, UNKNOWN, max(1, course.looked_at + 1), MOST_TURNS).within(least, most)
    for going in Standing("running", False, 0, "", least, most).within(0, course.last):
        if at.signal:
            yield going._replace(status="stopped", end=killed_by(at.signal))
        elif at.status != "running":
            yield going._replace(status="paused")
        else:
            yield going
            if task.breaks:
                yield going._replace(status="paused")


def killed_by(signal: int) -> str:
    return json.dumps({"cause": "kill", "exit": 128 + signal, "signal": signal}, sort_keys=True)


def come_to(task: Task, at: Standing) -> typing.Iterator[Standing]:
    """What takes and returns may have made of a standing. One that is running makes any number of slices; one that is
    to be paused or killed makes those turns alone that its slice has left, one at least."""
    yield at
    if at.status == "running" and not at.signal:
        for later in at._replace(most=MOST_TURNS).within(0, task.course.last):
            yield later._replace(out=True)
            if not at.out:
                yield later
        yield from landed(task, at, at.least + 1, MOST_TURNS)
    elif at.out:
        yield from landed(task, at, at.least + 1, at.most + MOST_SLICE)


def joined(standings: typing.Iterable[Standing]) -> frozenset[Standing]:
    """The same standings, those of one kind whose ranges meet in one."""
    found: list[Standing] = []
    for at in sorted(standings):
        last = found[-1] if found else None
        if last is not None and last[:4] == at[:4] and at.least <= last.most + 1:
            found[-1] = last._replace(most=max(last.most, at.most))
        else:
            found.append(at)
    return frozenset(found)


def spread(task: Task) -> Task:
    """The task with all that slices may have made of it."""
    return task._replace(standings=joined(later for at in task.standings for later in come_to(task, at)))


# ---- requests


def state(id: str, at: Standing, is_removed: bool = False) -> Outcome:
    """A reply that is a task's state."""
    return Outcome({"id": id, "ok": True, "status": at.status}, at, True, True, is_removed)


def status_of(id: str, at: Standing) -> Outcome:
    """A reply that tells a task's new status."""
    return Outcome({"id": id, "ok": True, "status": at.status}, at)


def start(task: Task, at: Standing, id: str) -> Outcomes:
    if at.status != "created":
        yield refused(11, at)
    elif task.course.ends_at == 0:
        yield status_of(id, at._replace(status="stopped", end=task.course.end))
    else:
        for is_paused in task.course.begins_at(task.breaks):
            yield status_of(id, at._replace(status="paused" if is_paused else "running"))
        if not task.course.is_known and task.course.looked_at < 0:
            yield status_of(id, at._replace(status="stopped", end=UNKNOWN))


def pause(_task: Task, at: Standing, id: str) -> Outcomes:
    if at.status != "running":
        yield refused(11, at)
    else:
        yield status_of(id, at._replace(status="pausing" if at.out else "paused"))


def resume(_task: Task, at: Standing, id: str) -> Outcomes:
    yield status_of(id, at._replace(status="running")) if at.status == "paused" else refused(11, at)


def kill(_task: Task, at: Standing, id: str, signal: int) -> Outcomes:
    if signal not in (9, 15):
        yield refused(13, at)
    elif at.status == "stopped":
        yield refused(11, at)
    elif at.out:
        yield status_of(id, at._replace(signal=at.signal or signal))
    else:
        yield status_of(id, at._replace(status="stopped", end=killed_by(signal)))


def delete(_task: Task, at: Standing, id: str) -> Outcomes:
    yield state(id, at, True) if at.status == "stopped" else refused(11, at)


def state_(_task: Task, at: Standing, id: str) -> Outcomes:
    yield state(id, at)


def wait(_task: Task, at: Standing, id: str) -> Outcomes:
    """A wait is answered by none but a task that is settled."""
    if at.status not in ("running", "pausing"):
        yield state(id, at)


def output(task: Task, at: Standing, id: str, stream: int) -> Outcomes:
    if stream not in (1, 2):
        yield refused(13, at)
    elif at.out:
        yield refused(12, at)
    elif not task.course.is_known:
        yield Outcome({"id": id, "ok": True}, at, open=("hex", "size"))
    else:
        written, data = task.course.written[stream], task.course.bytes[stream]
        for (turn, size), (end, _) in zip(written, [*written[1:], (MOST_TURNS + 1, 0)]):
            for left in at.within(turn, end - 1):
                yield Outcome({"hex": data[:size].hex(), "id": id, "ok": True, "size": size}, left)


def break_(task: Task, at: Standing, id: str, func: int, place: int) -> Outcomes:
    if at.status not in ("created", "paused"):
        yield refused(11, at)
        return
    for is_there in task.course.has_place(func, place):
        if not is_there:
            yield refused(13, at)
        elif (func, place) in task.breaks:
            yield refused(3, at)
        elif len(task.breaks) >= MOST_BREAKS:
            yield refused(14, at)
        else:
            yield Outcome({"id": id, "ok": True}, at)


def unbreak(task: Task, at: Standing, id: str, func: int, place: int) -> Outcomes:
    if at.status not in ("created", "paused"):
        yield refused(11, at)
        return
    for is_there in task.course.has_place(func, place):
        if not is_there:
            yield refused(13, at)
        elif (func, place) not in task.breaks:
            yield refused(4, at)
        else:
            yield Outcome({"id": id, "ok": True}, at)


def step(task: Task, at: Standing, id: str, count: int) -> Outcomes:
    """A breakpoint may end the turns early."""
    if at.status != "paused":
        yield refused(11, at)
    elif not 1 <= count <= MOST_STEPS:
        yield refused(13, at)
    else:
        least = at.least + (1 if task.breaks else count)
        for left in landed(task, at, at.least + 1, at.most + count):
            for found in left.within(0 if left.status == "stopped" else least, MOST_TURNS):
                yield state(id, found)


def inspect(_task: Task, at: Standing, id: str) -> Outcomes:
    yield refused(12, at) if at.out else Outcome({"id": id, "ok": True}, at, True, open=("frames",))


def peek(_task: Task, at: Standing, id: str, address: int, length: int) -> Outcomes:
    if at.out:
        yield refused(12, at)
        return
    yield refused(13, at)
    if length <= MOST_PEEK:
        yield Outcome({"id": id, "ok": True}, at, open=("hex",))


REQUESTS: dict[str, typing.Callable[..., Outcomes]] = {
    "start": start, "pause": pause, "resume": resume, "kill": kill, "delete": delete, "state": state_, "wait": wait,
    "output": output, "break": break_, "unbreak": unbreak, "step": step, "inspect": inspect, "peek": peek}


# ---- replies


def told_end(at: Standing, reply: Members) -> Standing:
    """The standing, with the end that a reply tells where it was not known."""
    if at.end != UNKNOWN or "cause" not in reply:
        return at
    end = {key: reply[key] for key in ("cause", "exit", "trap") if key in reply}
    code, is_right = end.get("exit"), False
    if end["cause"] == "exit":
        is_right = set(end) == {"cause", "exit"} and type(code) is int and 0 <= code < 2**32
    elif end["cause"] == "return":
        is_right = line_of(end) == line_of({"cause": "return", "exit": 0})
    elif end["cause"] == "trap":
        is_right = type(code) is int and code == 134 and end.get("trap") in TRAPS
    return at._replace(end=json.dumps(end, sort_keys=True)) if is_right else at


def matched(outcome: Outcome, reply: Members) -> typing.Iterator[Standing]:
    """What is left where an outcome has this reply, if it has."""
    open_keys = {*outcome.open, *(["n"] if outcome.is_counted else [])}
    closed = {key: value for key, value in reply.items() if key not in open_keys}
    left = told_end(outcome.left, reply) if outcome.is_state else outcome.left
    wanted = outcome.reply | (ended(left) if outcome.is_state else {})
    if not open_keys <= set(reply) or line_of(closed) != line_of(wanted):
        return
    if not outcome.is_counted:
        yield left
    elif type(reply["n"]) is int:
        yield from left.within(reply["n"], reply["n"])


def ended(at: Standing) -> Members:
    """What a state tells of how a task has ended."""
    told: Members = {"cause": at.end} if at.end == UNKNOWN else json.loads(at.end or "{}")
    return told


def answered(task: Task, request: Members, reply: Members) -> tuple[bool, Task | None]:
    """Whether a task may answer a request so, and the task afterwards; None if it is removed."""
    members = {key: value for key, value in request.items() if key != "op"}
    left, is_removed = set(), False
    for at in task.standings:
        for outcome in REQUESTS[request["op"]](task, at, **members):
            for found in matched(outcome, reply):
                is_removed |= outcome.is_removed
                left.add(found)
    changed = noted(task, request, reply) if left and reply["ok"] is True else task
    if not left or changed is None:
        return False, None
    return True, None if is_removed else spread(changed._replace(standings=frozenset(left)))


def noted(task: Task, request: Members, reply: Members) -> Task | None:
    """The task with a breakpoint more or fewer, or with an output that was read; None if the frames are others, or the
    output is not what was read before and perhaps more."""
    if request["op"] in ("break", "unbreak"):
        return task._replace(breaks=task.breaks ^ {(request["func"], request["place"])})
    if request["op"] == "inspect":
        frames = task.course.frames(reply["n"])
        return task if frames is None or line_of(frames) == line_of(reply["frames"]) else None
    if request["op"] != "output" or task.course.is_known:
        return task
    text, seen = reply["hex"], list(task.seen)
    if not isinstance(text, str) or type(reply["size"]) is not int or 2 * reply["size"] != len(text):
        return None
    if not text.startswith(seen[request["stream"] - 1]):
        return None
    seen[request["stream"] - 1] = text
    return task._replace(seen=(seen[0], seen[1]))


def could_answer(task: Task, request: Members) -> list[str]:
    """What a task may answer a request, for a reader."""
    members = {key: value for key, value in request.items() if key != "op"}
    found = []
    for at in sorted(task.standings):
        for outcome in REQUESTS[request["op"]](task, at, **members):
            turns = "" if not outcome.is_counted else f" with n from {outcome.left.least}" + (
                f" to {outcome.left.most}" if outcome.left.most < MOST_TURNS // 2 else "")
            found.append(line_of(outcome.reply | (ended(outcome.left) if outcome.is_state else {})) + turns)
    return list(dict.fromkeys(found))
