"""A session of an editor: what each request of the Debug Adapter Protocol does."""
from __future__ import annotations

import codecs
import contextlib
import re
from collections.abc import Callable
from functools import partial
from pathlib import Path

from feulgama.dap.inbox import Inbox
from feulgama.dap.views import Body, Views
from feulgama.dap.wire import Message, Writer
from feulgama.debug.c_types import CType
from feulgama.debug.commands import BadCommandError, Commands, Quit, raw_type
from feulgama.debug.debugger import Breakpoint, Debugger
from feulgama.debug.expressions import NoValueError, evaluate
from feulgama.debug.look import Place
from feulgama.debug.symbols import NoPlaceError
from feulgama.debug.timeline import Why
from feulgama.debug.watched_module import NotWatchableError
from feulgama.errors import FeulgamaError, ShimEndedError
from feulgama.model import Stream

THREAD, TRAPS = 1, "traps"
CAPABILITIES = {
    "supportsConfigurationDoneRequest": True, "supportsFunctionBreakpoints": True, "supportsStepBack": True,
    "supportsEvaluateForHovers": True, "supportsReadMemoryRequest": True, "supportsDisassembleRequest": True,
    "supportsInstructionBreakpoints": True, "supportsSteppingGranularity": True, "supportsRestartRequest": True,
    "supportsConditionalBreakpoints": True, "supportsHitConditionalBreakpoints": True, "supportsLogPoints": True,
    "supportsTerminateRequest": True, "supportsDataBreakpoints": True, "supportsExceptionInfoRequest": True,
    "exceptionBreakpointFilters": [{"filter": TRAPS, "label": "Traps", "default": True,
                                    "description": "Stop before an instruction that traps"}],
}


class NoSessionError(FeulgamaError):
    """A request that needs a module, before one was launched."""


class Session:
    """A run under an editor's hand. `opener` makes a debugger of the arguments of `launch`. `inbox` is what the editor has
    sent and what is not answered yet."""

    def __init__(self, writer: Writer, opener: Callable[[Body], Debugger]) -> None:
        self._writer, self._opener = writer, opener
        self._debugger: Debugger | None = None
        self._views: Views | None = None
        self._commands: Commands | None = None
        self._launch: Body = {}
        self._owned: dict[str, list[Breakpoint]] = {}
        self._kinds: dict[tuple[int, int], CType] = {}
        self._decoders = {stream: codecs.getincrementaldecoder("utf-8")("replace") for stream in Stream}
        self.inbox = Inbox()
        self.is_over = False

    @property
    def debugger(self) -> Debugger:
        """The debugger. Raises NoSessionError before a launch."""
        if self._debugger is None:
            raise NoSessionError("no module is launched")
        return self._debugger

    @property
    def views(self) -> Views:
        """What is shown of the debugger's run."""
        if self._views is None:
            raise NoSessionError("no module is launched")
        return self._views

    @property
    def commands(self) -> Commands:
        """The commands of the terminal, over the debugger's run."""
        if self._commands is None:
            raise NoSessionError("no module is launched")
        return self._commands

    def answer(self, request: Message) -> None:
        """Answers a request, with the events that it brings."""
        method = REQUESTS.get(str(request.get("command")))
        if method is None:
            self._writer.refuse(request, f"there is no request {request.get('command')}")
            return
        try:
            given = request.get("arguments")
            method(self, request, given if isinstance(given, dict) else {})
        except ShimEndedError as error:
            self._failed(request, str(error))
            self._writer.event("terminated")
        except KeyError as error:
            self._failed(request, f"the argument {error} is missing")
        except (TypeError, AttributeError) as error:
            self._failed(request, f"an argument has another type: {error}")
        except (FeulgamaError, OSError, ValueError) as error:
            self._broken_off(request, str(error))
        except Exception as error:  # a fault of this program. An editor would wait for ever for what is not answered
            self._broken_off(request, f"{type(error).__name__}: {error}")

    def _broken_off(self, request: Message, why: str) -> None:
        """Refuses a request; after a move, which is answered already, it tells that the run has stopped."""
        is_move = self._writer.has_answered(request) and self._debugger is not None
        self._failed(request, why)
        if is_move:
            self._tell_stop({"reason": "pause", "description": why, "text": why})

    def _failed(self, request: Message, why: str) -> None:
        """Refuses a request; if it is answered already, what went wrong after that is told as output."""
        if self._writer.has_answered(request):
            self._writer.event("output", {"category": "stderr", "output": why + "\n"})
        else:
            self._writer.refuse(request, why)

    # The begin and the end.

    def initialize(self, request: Message, _given: Body) -> None:
        self._writer.respond(request, CAPABILITIES)

    def launch(self, request: Message, given: Body) -> None:
        self._debugger = self._opener(given)
        self._debugger.timeline.progress, self._debugger.timeline.interrupted = self._new_output, self.inbox.interrupted
        self._views, self._commands, self._launch = Views(self._debugger), Commands(self._debugger), given
        self._writer.respond(request)
        self._writer.event("initialized")

    def configuration_done(self, request: Message, _given: Body) -> None:
        self._writer.respond(request)
        if self._launch.get("stopOnEntry") or self.debugger.hit():
            self._stopped("entry", None)
        else:
            self._moved("breakpoint", self._go_on())

    def restart(self, request: Message, _given: Body) -> None:
        self.debugger.timeline.begin_again()
        for decoder in self._decoders.values():
            decoder.reset()
        self.configuration_done(request, {})

    def disconnect(self, request: Message, _given: Body) -> None:
        self.is_over = True
        self._writer.respond(request)

    def terminate(self, request: Message, _given: Body) -> None:
        self._writer.respond(request)
        self._writer.event("terminated")

    # Breakpoints.

    def set_breakpoints(self, request: Message, given: Body) -> None:
        source = given.get("source") or {}
        key = f"{source.get('sourceReference') or ''} {source.get('path', source.get('name', ''))}"
        self._replace(key)
        shown = [self._at_line(key, source, found) for found in given.get("breakpoints") or []]
        self._writer.respond(request, {"breakpoints": shown})

    def _at_line(self, key: str, source: Body, found: Body) -> Body:
        line = found["line"]
        places, told = self.views.places_in(source, line)
        if not places:
            return {"verified": False, "line": line, "message": f"line {line} has no instruction"}
        try:
            added = self._added(key, f"{key}:{line}", places, found)
        except BadCommandError as error:
            return {"verified": False, "line": line, "message": str(error)}
        return {"id": added.number, "verified": True, "line": told, "source": source}

    def _added(self, key: str, words: str, places: list[Place], found: Body) -> Breakpoint:
        """A breakpoint with the conditions and the text that an editor gives it."""
        count = re.fullmatch(r"(?:>=)?\s*(\d*)", str(found.get("hitCondition") or "").strip())
        if count is None:
            raise BadCommandError("a hit condition is a number: the run stops from that hit on")
        added = self.debugger.add_breakpoint(words, places)
        added.condition, added.ignore = str(found.get("condition") or ""), max(0, int(count[1] or 1) - 1)
        added.log = found.get("logMessage") or None
        self._owned[key].append(added)
        return added

    def set_function_breakpoints(self, request: Message, given: Body) -> None:
        self._replace("functions")
        shown = [self._named("functions", partial(self._places_named, found["name"]), found)
                 for found in given.get("breakpoints") or []]
        self._writer.respond(request, {"breakpoints": shown})

    def set_instruction_breakpoints(self, request: Message, given: Body) -> None:
        self._replace("instructions")
        shown = [self._named("instructions", partial(self._places_at, found), found)
                 for found in given.get("breakpoints") or []]
        self._writer.respond(request, {"breakpoints": shown})

    def data_breakpoint_info(self, request: Message, given: Body) -> None:
        """What a variable is called as a data breakpoint, if it is in memory."""
        found = self.views.in_memory(given.get("variablesReference"), str(given["name"]), given.get("frameId") or 0)
        if found is None or found.address is None:
            told = "there is no such variable" if found is None else "it is not in memory, where writes are looked for"
            self._writer.respond(request, {"dataId": None, "description": f"{given['name']}: {told}"})
            return
        self._writer.respond(request, {"dataId": f"{found.address:#x} {found.kind.size} {found.name}", "canPersist": False,
                                       "description": f"{found.name}, {found.kind.size} bytes at {found.address:#x}",
                                       "accessTypes": ["write"]})
        self._kinds[found.address, found.kind.size] = found.kind

    def set_data_breakpoints(self, request: Message, given: Body) -> None:
        """Replaces the data breakpoints: a run stops where the bytes change."""
        self.debugger.watchpoints.clear()
        self._writer.respond(request, {"breakpoints": [self._watched(str(found["dataId"]))
                                                       for found in given.get("breakpoints") or []]})

    def _watched(self, data: str) -> Body:
        address, size, name = data.split(" ", 2)
        key = int(address, 0), int(size)
        try:
            added = self.debugger.add_watchpoint(name, *key, self._kinds.get(key, raw_type(key[1])))
        except NotWatchableError as error:
            return {"verified": False, "message": str(error)}
        return {"id": added.number, "verified": True}

    def _places_named(self, name: str) -> list[Place]:
        return self.debugger.symbols.places(name, is_stop=True)[0]

    def _places_at(self, found: Body) -> list[Place]:
        return [self.views.place_at(found["instructionReference"], found.get("offset", 0))]

    def _named(self, key: str, places_of: Callable[[], list[Place]], found: Body) -> Body:
        try:
            places = places_of()
            added = self._added(key, key, places, found)
        except (NoPlaceError, NoValueError, BadCommandError) as error:
            return {"verified": False, "message": str(error)}
        source, line = self.views.source_of(places[0])
        return {"id": added.number, "verified": True, "source": source, "line": line}

    def _replace(self, key: str) -> None:
        """Takes away what was set under a key before."""
        for old in self._owned.pop(key, []):
            self.debugger.breakpoints.pop(old.number, None)
        self._owned[key] = []

    def set_exception_breakpoints(self, request: Message, given: Body) -> None:
        filters = given.get("filters") or []
        self.debugger.stops_at_traps = TRAPS in filters
        self._writer.respond(request, {"breakpoints": [{"verified": found == TRAPS} for found in filters]})

    def exception_info(self, request: Message, _given: Body) -> None:
        """The trap that the task is stopped before."""
        trap = self.debugger.timeline.trap
        if trap is None:
            raise NoSessionError("the next instruction does not trap, as far as is known")
        self._writer.respond(request, {"exceptionId": trap, "description": self._trap_line(), "breakMode": "always"})

    def _trap_line(self) -> str:
        return f"trap {self.debugger.timeline.trap}: the next instruction ends the task"

    # Moving.

    def continue_(self, request: Message, _given: Body) -> None:
        self._writer.respond(request, {"allThreadsContinued": True})
        self._moved("breakpoint", self._go_on())

    def _go_on(self) -> Why:
        """Runs on. What sets breakpoints is answered on the way, and the run goes on with these."""
        why = self._run(self.debugger.go_on)
        while why is Why.INTERRUPTED and not self.debugger.watchpoints and (asides := self.inbox.asides()):
            with self._writer.aside():
                for aside in asides:
                    self.answer(aside)
            if self.debugger.timeline.exit is None:
                why = self._run(self.debugger.go_on)
            else:
                why = self._run(partial(self.debugger.back_over_trap, Why.ENDED))
        return why

    def _run(self, move: Callable[[], Why]) -> Why:
        """Moves. What sets breakpoints breaks it off, but no search for writes, which would begin anew."""
        with contextlib.nullcontext() if self.debugger.watchpoints else self.inbox.running():
            return move()

    def next(self, request: Message, given: Body) -> None:
        self._step(request, given, self.debugger.next, partial(self.debugger.step_line, True))

    def step_in(self, request: Message, given: Body) -> None:
        self._step(request, given, self.debugger.step, partial(self.debugger.step_line, False))

    def step_out(self, request: Message, given: Body) -> None:
        self._step(request, given, self.debugger.finish, self.debugger.finish)
        self._console("".join(f"returned {found}\n" for found in self.debugger.returned))

    def step_back(self, request: Message, given: Body) -> None:
        self._step(request, given, self.debugger.step_back, self.debugger.step_line_back)

    def reverse_continue(self, request: Message, _given: Body) -> None:
        self._writer.respond(request)
        self._moved("breakpoint", self.debugger.go_back())

    def _step(self, request: Message, given: Body, by_turn: Callable[[], Why], by_line: Callable[[], Why]) -> None:
        self._writer.respond(request)
        self._moved("step", by_turn() if given.get("granularity") == "instruction" else by_line())

    def pause(self, request: Message, _given: Body) -> None:
        """Answers a pause. What was running was broken off when the message was read."""
        self._writer.respond(request)

    def _moved(self, reason: str, why: Why) -> None:
        """Tells what came of a move: what the task wrote, and where it stopped or how it ended; but not where it stopped for a
        restart."""
        self._new_output()
        self._console("".join(f"{line}\n" for line in self.debugger.told()))
        if why is Why.INTERRUPTED and self.inbox.has("restart"):
            return
        if self.debugger.timeline.exit is not None and not self._launch.get("stopAtEnd"):
            self._ended()
        elif self.debugger.timeline.exit is not None:
            self._console(self._end_line())
            self._stopped("pause", "the task has ended")
        else:
            hit, changes = self.debugger.hit(), self.debugger.changes()
            if changes and why is Why.FOUND:
                self._console("".join(f"{line}\n" for line in self.commands.changed()))
                reason = "data breakpoint"
            told = {Why.INTERRUPTED: "pause", Why.BEGIN: "entry", Why.TRAP: "exception"}.get(
                why, "breakpoint" if hit else reason)
            self._stopped(told, self._trap_line() if why is Why.TRAP else None)

    def _new_output(self) -> None:
        for stream, new in self.debugger.timeline.new_output().items():
            if new:
                self._writer.event("output", {"category": stream.name.lower(),
                                              "output": self._decoders[stream].decode(new)})

    def _stopped(self, reason: str, description: str | None) -> None:
        body: Body = {"reason": reason, "hitBreakpointIds": [*(found.number for found in self.debugger.hit()),
                                                             *(found.watchpoint.number for found in self.debugger.changes())]}
        if description is not None:
            body["description"] = body["text"] = description
        self._tell_stop(body)

    def _tell_stop(self, body: Body) -> None:
        self.commands.leave_frame()
        self._writer.event("stopped", {**body, "threadId": THREAD, "allThreadsStopped": True})

    def _ended(self) -> None:
        self._console(self._end_line())
        if self.debugger.timeline.exit is not None:
            self._writer.event("exited", {"exitCode": self.debugger.timeline.exit.code})
        self._writer.event("terminated")

    def _end_line(self) -> str:
        return f"ended after {self.debugger.timeline.turn} turns: {self.debugger.timeline.exit}\n"

    def _console(self, text: str) -> None:
        if not text:
            return
        self._writer.event("output", {"category": "console", "output": text})

    # Looking.

    def threads(self, request: Message, _given: Body) -> None:
        self._writer.respond(request, {"threads": [{"id": THREAD, "name": "task"}]})

    def stack_trace(self, request: Message, given: Body) -> None:
        self._writer.respond(request, self.views.frames(given.get("startFrame") or 0, given.get("levels") or 0))

    def scopes(self, request: Message, given: Body) -> None:
        self._writer.respond(request, self.views.scopes(given["frameId"]))

    def variables(self, request: Message, given: Body) -> None:
        self._writer.respond(request, self.views.variables(given["variablesReference"]))

    def source(self, request: Message, given: Body) -> None:
        reference = (given.get("source") or {}).get("sourceReference") or given.get("sourceReference") or 0
        self._writer.respond(request, {"content": self.views.content(reference)})

    def read_memory(self, request: Message, given: Body) -> None:
        body = self.views.read_memory(given["memoryReference"], given.get("offset") or 0, given["count"])
        self._writer.respond(request, body)

    def disassemble(self, request: Message, given: Body) -> None:
        body = self.views.disassemble(given["memoryReference"], given.get("offset") or 0,
                                      given.get("instructionOffset") or 0, given["instructionCount"])
        self._writer.respond(request, body)

    def evaluate(self, request: Message, given: Body) -> None:
        """The value of an expression; in the console also what a command of the terminal shows."""
        text = str(given["expression"]).strip()
        scope = self.debugger.scope(given.get("frameId") or 0)
        try:
            found = evaluate(text, scope)
        except NoValueError:
            if given.get("context") != "repl":
                raise
            self._command(request, text)
            return
        self._writer.respond(request, self.views.result(found, text))

    def _command(self, request: Message, text: str) -> None:
        turn = self.debugger.timeline.turn
        try:
            lines = list(self.commands.answer(text))
        except Quit:
            raise BadCommandError("end the session in the editor") from None
        self._writer.respond(request, {"result": "\n".join(lines), "variablesReference": 0})
        if self.debugger.timeline.turn != turn:
            self._moved("goto", Why.FOUND)


def opener_of(open_file: Callable[[Path, list[str], dict[str, str], int | None], Debugger]) -> Callable[[Body], Debugger]:
    """What makes a debugger of the arguments of `launch`: program, args, env and memory."""
    def opened(given: Body) -> Debugger:
        if not isinstance(given.get("program"), str):
            raise NoSessionError("launch needs `program`, the file of a module")
        args, env = given.get("args") or [], given.get("env") or {}
        if not isinstance(args, list) or not all(isinstance(word, str) for word in args):
            raise NoSessionError("`args` is a list of texts, one for each argument")
        if not isinstance(env, dict):
            raise NoSessionError("`env` is an object, with the value of each variable under its name")
        return open_file(Path(given["program"]), args, env, given.get("memory"))
    return opened


REQUESTS: dict[str, Callable[[Session, Message, Body], None]] = {
    "initialize": Session.initialize, "launch": Session.launch, "configurationDone": Session.configuration_done,
    "restart": Session.restart, "disconnect": Session.disconnect, "terminate": Session.terminate,
    "setBreakpoints": Session.set_breakpoints, "setFunctionBreakpoints": Session.set_function_breakpoints,
    "setInstructionBreakpoints": Session.set_instruction_breakpoints,
    "dataBreakpointInfo": Session.data_breakpoint_info, "setDataBreakpoints": Session.set_data_breakpoints,
    "setExceptionBreakpoints": Session.set_exception_breakpoints, "exceptionInfo": Session.exception_info,
    "continue": Session.continue_, "next": Session.next,
    "stepIn": Session.step_in, "stepOut": Session.step_out, "stepBack": Session.step_back,
    "reverseContinue": Session.reverse_continue, "pause": Session.pause, "threads": Session.threads,
    "stackTrace": Session.stack_trace, "scopes": Session.scopes, "variables": Session.variables,
    "source": Session.source, "readMemory": Session.read_memory, "disassemble": Session.disassemble,
    "evaluate": Session.evaluate,
}
