"""The board that callers share (docs/PROTOCOL.md): what it answers a request, in all ways in which it may stand. Its
store is that of the second reading."""
import types
import typing

from suite.history import tasks
from suite.history.calls import Call, History
from suite.history.courses import Course
from suite.history.tasks import Members, Task, line_of, refusal
from suite.reference import wasm
from suite.reference.board import ID, MOST_CONTENTS, MOST_TASKS, Board, Process, Refused, process_of

READS = {"state", "wait", "output", "inspect", "peek"}
TO_TASKS = set(tasks.REQUESTS)
CANNOT_OPEN = (7, 8, 9, 21, 22, 23)
NOT_SO = -2


class BoardState(typing.NamedTuple):
    """The digests of the contents in their order, leases with their members, and tasks by their ids."""
    contents: tuple[str, ...] = ()
    leases: tuple[tuple[str, tuple[str, ...]], ...] = ()
    tasks: tuple[tuple[str, Task], ...] = ()

    def task(self, id: str) -> Task | None:
        return dict(self.tasks).get(id)

    def with_task(self, id: str, task: Task | None) -> "BoardState":
        """The board with the task of an id changed, entered or removed."""
        found = {**dict(self.tasks), id: task}
        return self._replace(tasks=tuple(sorted(((name, left) for name, left in found.items() if left is not None),
                                                key=lambda entry: entry[0])))


Answers = list[tuple[Members, BoardState]]


class Boards:
    """The boards that a history comes to, by number, and what its calls make of them."""

    def __init__(self, history: History, modules: dict[str, bytes] | None = None) -> None:
        self.table, self.digests = history.table, history.digests()
        self.modules = {**history.modules(), **(modules or {})}
        self.courses: dict[tuple[str, str], Course] = {}
        self.states, self.numbers = [BoardState()], {BoardState(): 0}
        self.known: dict[int, int] = {}

    def after(self, board: int, call: int) -> int:
        """Twice the number of the board after a call, and one more if the call, wherever it is made, leaves the board
        and its reply narrows nothing here; NOT_SO if the board does not answer so."""
        key = board * (len(self.table) + 1) + call
        found = self.known.get(key)
        if found is None:
            found = self.known[key] = self.look(board, call)
        return found

    def look(self, board: int, call: int) -> int:
        if call == len(self.table):
            return NOT_SO
        request, reply = self.table[call]
        state = self.answered(self.states[board], self.table[call])
        if state is None:
            return NOT_SO
        if state not in self.numbers:
            self.numbers[state] = len(self.states)
            self.states.append(state)
        leaves = reply["ok"] is False or request["op"] in READS
        return 2 * self.numbers[state] + (leaves and self.numbers[state] == board)

    def answered(self, state: BoardState, call: Call) -> BoardState | None:
        """The board after a call; None if it does not answer so."""
        request, reply = call
        if request["op"] in TO_TASKS and ID.match(request["id"]):
            task = state.task(request["id"])
            if task is not None:
                is_so, left = tasks.answered(task, request, reply)
                return state.with_task(request["id"], left) if is_so else None
        return next((left for told, left in self.answers(state, request) if is_told(told, reply)), None)

    def answers(self, state: BoardState, request: Members) -> Answers:
        """What a request is answered that goes to no task that is there."""
        op = request["op"]
        if op in TO_TASKS:
            return [(refusal(4 if ID.match(request["id"]) else 2), state)]
        if op == "create":
            return self.create(state, request["config"], request["id"])
        return self.put_text(state, request["text"]) if op == "put_text" else [self.on_store(state, request)]

    def could_answer(self, board: int, call: Call) -> list[str]:
        """What a board may answer a request, for a reader."""
        state, request = self.states[board], call.request
        task = state.task(request["id"]) if request["op"] in TO_TASKS else None
        if task is not None:
            return tasks.could_answer(task, request)
        return [line_of(told) for told, _ in self.answers(state, request)]

    def on_store(self, state: BoardState, request: Members) -> tuple[Members, BoardState]:
        board: typing.Any = Board(False)
        board.contents = {digest: self.modules.get(digest) for digest in state.contents}
        board.leases = {id: list(members) for id, members in state.leases}
        held = types.SimpleNamespace
        board.tasks = {id: held(process=held(digest=task.course.digest)) for id, task in state.tasks}
        try:
            reply = getattr(board, request["op"] + "_")(**{key: value for key, value in request.items() if key != "op"})
        except Refused as refused:
            return refused.reply(), state
        leases = tuple((id, tuple(members)) for id, members in board.leases.items())
        return reply, state._replace(contents=tuple(board.contents), leases=leases)

    def put_text(self, state: BoardState, text: str) -> Answers:
        """A put of what a text denotes, which is not assembled here: its digest is known by an accepted put of it."""
        digest = self.digests.get(text)
        if digest is None:
            numbers = [18, 9, *([3] if state.contents else []), *([14] if len(state.contents) >= MOST_CONTENTS else [])]
            return [({**refusal(number), **({"line": None, "column": None} if number == 18 else {})}, state)
                    for number in numbers]
        if digest in state.contents:
            return [(refusal(3), state)]
        if len(state.contents) >= MOST_CONTENTS:
            return [(refusal(14), state)]
        return [({"digest": digest, "ok": True, "size": None}, state._replace(contents=(*state.contents, digest)))]

    def create(self, state: BoardState, config: str, id: str) -> Answers:
        if not ID.match(id):
            return [(refusal(2), state)]
        if state.task(id) is not None:
            return [(refusal(3), state)]
        if len(state.tasks) >= MOST_TASKS:
            return [(refusal(14), state)]
        process = process_of(config)
        if process is None:
            return [(refusal(10), state)]
        if process.digest not in state.contents:
            return [(refusal(5), state)]
        return self.open(state, config, id, process)

    def open(self, state: BoardState, config: str, id: str, process: Process) -> Answers:
        """A create from a content. Where its bytes are not known, any refusal of a module may come."""
        data = self.modules.get(process.digest)
        for number, place in wasm.refusals_of(data, process.cap) if data is not None else ():
            return [(Refused(number, place).reply(), state)]
        key = process.digest, config
        if key not in self.courses:
            self.courses[key] = Course(process.digest, process, data)
        accepted = {"id": id, "ok": True, "status": "created"}, state.with_task(id, tasks.created(self.courses[key]))
        return [accepted, *([(refusal(number), state) for number in CANNOT_OPEN] if data is None else [])]


def is_told(told: Members, reply: Members) -> bool:
    """Whether a reply is this one; a member that is None here may have any value. A refusal 8 may name a place."""
    open_keys = {key for key, value in told.items() if value is None}
    closed = {key: value for key, value in reply.items() if key not in open_keys}
    if told.get("number") == 8:
        closed = {key: value for key, value in closed.items() if key not in ("func", "place")}
        told = {key: value for key, value in told.items() if key not in ("func", "place")}
    wanted = {key: value for key, value in told.items() if value is not None}
    return open_keys <= set(reply) and line_of(closed) == line_of(wanted)
