"""The commands of the terminal debugger: what a line of the user's does, and the lines that it shows."""
from __future__ import annotations

from collections.abc import Callable, Iterable
from dataclasses import dataclass
from pathlib import Path

from feulgama.debug import c_types, render
from feulgama.debug.c_types import CType
from feulgama.debug.debugger import Breakpoint, Debugger, Watchpoint
from feulgama.debug.expressions import NoValueError, Operand, Scope, address, evaluate
from feulgama.debug.look import Place
from feulgama.debug.memory import dump, format_of
from feulgama.debug.numbers import number_of
from feulgama.debug.timeline import Why
from feulgama.errors import FeulgamaError
from feulgama.files import write_whole
from feulgama.model import Frame, Stream

Lines = Iterable[str]
ENDED = "the task has ended, and has no frames and no locals; reverse-step goes to its last instruction"


class BadCommandError(FeulgamaError):
    """A line that is no command, or has words that the command does not take."""


class Quit(Exception):
    """The user has had enough."""


@dataclass(frozen=True, slots=True)
class Command:
    """A command: its name, its short forms, what follows it, what it does in a line, and the method that does it."""
    name: str
    short: tuple[str, ...]
    words: str
    help: str
    run: Callable[["Commands", str], Lines]


class Commands:
    """The state of a terminal: the debugger, and the frame that is looked at."""

    def __init__(self, debugger: Debugger) -> None:
        self.debugger = debugger
        self.timeline, self.symbols = debugger.timeline, debugger.symbols
        self.selected = 0
        self._listed: Place | None = None
        self.displayed: dict[int, str] = {}

    def answer(self, line: str) -> Lines:
        """The lines that a line of the user's is answered. Raises what goes wrong as a FeulgamaError, and Quit."""
        word, _, rest = line.strip().partition(" ")
        if "/" in word:
            word, slash, form = word.partition("/")
            rest = f"{slash}{form} {rest}"
        return named(word).run(self, rest.strip()) if word else []

    # What is shown.

    def stopped(self, why: Why | None = None) -> Lines:
        """Where the run is now, after what it wrote on the way."""
        self.leave_frame()
        yield from self._new_output()
        yield from self.debugger.told()
        if why in (Why.INTERRUPTED, Why.LIMIT, Why.BEGIN):
            yield {Why.INTERRUPTED: "interrupted", Why.LIMIT: "the turns asked for are made",
                   Why.BEGIN: "the begin of the run"}[why]
        yield from self.changed()
        look = self.timeline.look()
        if look.place is None:
            yield f"ended after {self.timeline.turn} turns: {self.timeline.exit}"
            return
        for found in self.debugger.hit():
            yield f"breakpoint {found.number}"
        if self.timeline.trap is not None:
            yield f"trap {self.timeline.trap}: the next instruction ends the task"
        yield from render.stop_lines(self.symbols, look.turn, look.place, look.depth)
        for number, words in self.displayed.items():
            yield f"{number}: {words} = {self._displayed(words)}"

    def leave_frame(self) -> None:
        """Looks at the innermost frame, as after each move."""
        self.selected, self._listed = 0, None

    def _displayed(self, words: str) -> str:
        try:
            return self._shown(evaluate(words, self._scope()))
        except FeulgamaError as error:
            return f"({error})"

    def changed(self) -> Lines:
        """What the writes changed that the run has stopped at."""
        for found in self.debugger.changes():
            one, place = found.watchpoint, found.place
            before, after = (one.kind.text(data, self.timeline.memory) for data in (found.before, found.after))
            if self.timeline.turn == found.turn:
                yield f"watchpoint {one.number}: {one.words} was {before}, is {after}"
                if place is not None:
                    yield f"  written by {self.symbols.told(place)}: {self.symbols.instruction(place).text}"
            else:
                yield f"watchpoint {one.number}: {one.words} is {before}; the next instruction makes it {after}"

    def _new_output(self) -> Lines:
        for stream, new in self.timeline.new_output().items():
            yield from (f"{stream.name.lower()}: {line}" for line in new.decode(errors="replace").splitlines())

    def _frame(self) -> Frame:
        frames = self.debugger.frames()
        if not frames:
            raise BadCommandError("the task has ended, and has no frames")
        if self.selected >= len(frames):  # a move that has failed may have left it
            raise BadCommandError(f"there is no frame {self.selected}")
        return frames[self.selected]

    def _place(self) -> Place:
        return self.debugger.place_of(self._frame(), self.selected == 0)

    def _scope(self) -> Scope:
        return self.debugger.scope(self.selected)

    # Moving.

    def run(self, rest: str) -> Lines:
        self.timeline.begin_again()
        return self.stopped() if self.debugger.hit() else self.continue_(rest)

    def continue_(self, rest: str) -> Lines:
        limit = self.timeline.turn + count_of(rest) if rest else None
        return self.stopped(self.debugger.go_on(limit))

    def stepi(self, rest: str) -> Lines:
        return self.stopped(self.debugger.step(count_of(rest)))

    def nexti(self, rest: str) -> Lines:
        return self._repeated(self.debugger.next, rest)

    def step(self, rest: str) -> Lines:
        if self.symbols.lines is None:
            return self.stepi(rest)
        return self._repeated(lambda: self.debugger.step_line(False), rest)

    def next(self, rest: str) -> Lines:
        return self._repeated(lambda: self.debugger.step_line(True), rest)

    def _repeated(self, move: Callable[[], Why], rest: str) -> Lines:
        why = Why.FOUND
        for _ in range(count_of(rest)):
            why = move()
            if why is not Why.FOUND or self.debugger.hit():
                break
        return self.stopped(why)

    def finish(self, rest: str) -> Lines:
        taking_nothing(rest)
        self._frame()
        lines = list(self.stopped(self.debugger.finish(self.selected)))
        return [*lines, *(f"returned {found}" for found in self.debugger.returned)]

    def until(self, rest: str) -> Lines:
        if not rest:
            raise BadCommandError("until takes a place")
        places, remark = self.symbols.places(rest, is_stop=True)
        return [*([remark] if remark else []), *self.stopped(self.debugger.until(places))]

    def reverse_stepi(self, rest: str) -> Lines:
        return self.stopped(self.debugger.step_back(count_of(rest)))

    def reverse_step(self, rest: str) -> Lines:
        if self.symbols.lines is None or self.timeline.exit is not None:
            return self.reverse_stepi(rest)
        return self._repeated(self.debugger.step_line_back, rest)

    def reverse_continue(self, rest: str) -> Lines:
        taking_nothing(rest)
        return self.stopped(self.debugger.go_back())

    def goto(self, rest: str) -> Lines:
        why = self.timeline.seek(count_of(rest, least=0))
        return self.stopped(None if why is Why.FOUND else why)

    # Breakpoints.

    def break_(self, rest: str) -> Lines:
        return self._added(rest)[1]

    def tbreak(self, rest: str) -> Lines:
        added, lines = self._added(rest)
        added.is_temporary = True
        return lines

    def log(self, rest: str) -> Lines:
        words, _, text = rest.partition(" ")
        if not text:
            raise BadCommandError("log takes a place and a text, in which {EXPRESSION} is its value")
        added, lines = self._added(words)
        added.log = text.strip()
        return [*lines[:-1], self._breakpoint_line(added)]

    def _added(self, rest: str) -> tuple[Breakpoint, list[str]]:
        """A breakpoint at `[PLACE] [if CONDITION]`, and the lines that tell it."""
        words, is_conditional, condition = (f" {rest} ").partition(" if ")
        words = words.strip()
        places, remark = self.symbols.places(words, is_stop=True) if words else ([self._place()], "")
        added = self.debugger.add_breakpoint(words or str(places[0]), places)
        added.condition = condition.strip() if is_conditional else ""
        return added, [*([remark] if remark else []), self._breakpoint_line(added)]

    def condition(self, rest: str) -> Lines:
        number, _, condition = rest.partition(" ")
        found = self._breakpoint(number)
        found.condition = condition.strip()
        return [self._breakpoint_line(found)]

    def ignore(self, rest: str) -> Lines:
        number, _, count = rest.partition(" ")
        found = self._breakpoint(number)
        found.ignore = found.hits + count_of(count, least=0)
        return [self._breakpoint_line(found)]

    def _breakpoint(self, word: str) -> Breakpoint:
        number = number_of(word)
        found = None if number is None else self.debugger.breakpoints.get(number)
        if found is None:
            raise BadCommandError(f"there is no breakpoint {word}".rstrip())
        return found

    def save(self, rest: str) -> Lines:
        word, _, file = rest.partition(" ")
        if not word or not "breakpoints".startswith(word) or not file.strip():
            raise BadCommandError("save takes `breakpoints` and a file")
        lines = [saved(found) for found in self.debugger.breakpoints.values()]
        lines += [f"watch {found.words}" for found in self.debugger.watchpoints.values()]
        try:
            write_whole(Path(file.strip()), "".join(f"{line}\n" for line in lines).encode())
        except OSError as error:
            raise BadCommandError(f"{file.strip()}: {error.strerror}") from error
        except ValueError as error:  # a NUL in the name, or half a character in a line
            raise BadCommandError(f"{file.strip()}: {error}") from error
        return [f"{len(lines)} breakpoints are in {file.strip()}; feulgama debug --commands {file.strip()} sets them"]

    def display(self, rest: str) -> Lines:
        if rest:
            self.displayed[max(self.displayed, default=0) + 1] = rest
        return [f"{number}: {words} = {self._displayed(words)}" for number, words in self.displayed.items()
                if not rest or words == rest]

    def undisplay(self, rest: str) -> Lines:
        number = count_of(rest)
        if rest and number not in self.displayed:
            raise BadCommandError(f"nothing is displayed under {number}")
        for old in [number] if rest else list(self.displayed):
            del self.displayed[old]
        return []

    def delete(self, rest: str) -> Lines:
        number, breakpoints, watchpoints = count_of(rest), self.debugger.breakpoints, self.debugger.watchpoints
        if rest and number not in breakpoints and number not in watchpoints:
            raise BadCommandError(f"there is no breakpoint {number}")
        for old in [number] if rest else [*breakpoints, *watchpoints]:
            breakpoints.pop(old, None)
            watchpoints.pop(old, None)
        return []

    def watch(self, rest: str) -> Lines:
        target = self._target(rest)
        added = self.debugger.add_watchpoint(*target)
        return [self._watchpoint_line(added)]

    def last_write(self, rest: str) -> Lines:
        words, address, size, kind = self._target(rest)
        found = self.debugger.last_write(words, address, size, kind)
        if found is None:
            return [f"nothing has written {words} up to here; it is what the module's memory begins with"]
        after = kind.text(found.after, self.timeline.memory)
        same = "" if found.before != found.after else ", which it was before"
        return [f"{words} was written last by the next instruction: it makes it {after}{same}", *self.stopped()]

    def _target(self, rest: str) -> tuple[str, int, int, CType]:
        """What is to be watched: a variable in memory, or an address with a number of bytes, which is 4 if none is told."""
        if not rest:
            raise BadCommandError("it takes the name of a variable, or an address and a number of bytes")
        try:
            found = evaluate(rest, self._scope())
        except NoValueError:
            words, _, last = rest.rpartition(" ")
            size = number_of(last)
            if not words or size is None:
                raise
            return rest, address(words, self._scope()), size, raw_type(size)
        if found.address is not None and found.kind is not None:
            return rest, found.address, found.kind.size, found.kind
        if found.kind is not None and not isinstance(found.kind, c_types.Pointer):
            raise BadCommandError(f"{rest} is not in memory, where writes are looked for: it is {self._shown(found)}")
        return rest, address(rest, self._scope()), 4, raw_type(4)

    def _watchpoint_line(self, found: Watchpoint) -> str:
        return f"watchpoint {found.number} at {found.address:#x}, {found.size} bytes: {found.words}"

    def _breakpoint_line(self, found: Breakpoint) -> str:
        more = [f"if {found.condition}"] if found.condition else []
        more += [f"logs {found.log}"] if found.log is not None else []
        more += [f"hit {found.hits} time{'s' if found.hits != 1 else ''}"] if found.hits else []
        more += [f"stops after {found.ignore - found.hits} more"] if found.ignore > found.hits else []
        return ", ".join([f"breakpoint {found.number} at {', '.join(map(self.symbols.told, found.places))}", *more])

    # Looking.

    def info(self, rest: str) -> Lines:
        shows: dict[str, Callable[[], Lines]] = {
            "breakpoints": self._info_breakpoints, "globals": self._info_globals,
            "locals": lambda: render.local_lines(self.symbols, self._frame()), "variables": self._info_variables,
            "stack": lambda: render.operand_lines(self._frame()),
            "source": self._info_source, "memory": self._info_memory, "output": self._info_output,
            "functions": self._info_functions}
        found = [name for name in shows if rest and name.startswith(rest)]
        if len(found) != 1:
            raise BadCommandError(f"info takes one of {', '.join(shows)}")
        return shows[found[0]]()

    def _info_breakpoints(self) -> Lines:
        shown = [*map(self._breakpoint_line, self.debugger.breakpoints.values()),
                 *map(self._watchpoint_line, self.debugger.watchpoints.values())]
        return shown or ["no breakpoints"]

    def _info_variables(self) -> Lines:
        found = self.debugger.variables(self.selected)
        yield from (f"{one.type} {one.name} = {one.text}" for one in found)
        if self.timeline.exit is not None:
            yield ENDED
        elif not found:
            yield self.symbols.why_no_variables()

    def _info_globals(self) -> Lines:
        return [f"{one.type} {one.name} = {one.text}" for one in self.debugger.globals()] or \
            [self.symbols.why_no_variables()]

    def _info_memory(self) -> Lines:
        size = self.timeline.memory_size()
        return [f"{size} bytes, {size // 65_536} pages"]

    def _info_output(self) -> Lines:
        for stream in Stream:
            written = self.timeline.output(stream)
            yield f"{stream.name.lower()}: {len(written)} bytes"
            yield from (f"    {line}" for line in written.decode(errors="replace").splitlines())

    def _info_source(self) -> Lines:
        source = self.symbols.line_at(self._place())
        if source is None:
            return [why for why in [self.symbols.why_no_lines()] if why] or ["this instruction has no line"]
        path = self.symbols.sources.path(source.file)
        where = f"is {path.resolve()}" if path is not None else "is not there"
        return [f"{source}; {source.file} {where}"]

    def _info_functions(self) -> Lines:
        imports = self.symbols.module.imports
        yield from (f"{index} {module}.{name}" for index, (module, name, _) in enumerate(imports))
        for function in self.symbols.module.functions:
            yield f"{function.index} {self.symbols.names.function(function.index)}, " \
                  f"{len(function.instructions)} instructions"

    def backtrace(self, rest: str) -> Lines:
        first, _, count = rest.partition(" ")
        is_full = first != "" and "full".startswith(first)
        frames = self.debugger.frames()
        words = count.strip() if is_full else rest
        shown = frames[:count_of(words)] if words else frames
        for number, frame in enumerate(shown):
            yield self._frame_line(number, frame, is_full)
            if is_full:
                yield from (f"    {one.type} {one.name} = {one.text}" for one in self.debugger.variables(number)
                            if not one.is_global)
        if not shown:
            yield "no frames"

    def _frame_line(self, number: int, frame: Frame, is_full: bool = False) -> str:
        place = self.debugger.place_of(frame, number == 0)
        if is_full or not self.symbols.has_variables():
            return render.frame_line(self.symbols, number, frame, place)
        arguments = [f"{one.name}={one.text}" for one in self.debugger.variables(number) if one.is_parameter]
        return render.call_line(self.symbols, number, frame, place, arguments)

    def frame(self, rest: str) -> Lines:
        number = count_of(rest, least=0) if rest else self.selected
        frames = self.debugger.frames()
        if number >= len(frames):
            raise BadCommandError(f"there is no frame {number}")
        self.selected, self._listed = number, None
        yield self._frame_line(number, frames[number])

    def examine(self, rest: str) -> Lines:
        form, text = "", rest
        if rest.startswith("/"):
            form, _, text = rest[1:].partition(" ")
        if not text.strip():
            raise BadCommandError("x takes an address: x/4xw 1024")
        return dump(format_of(form), address(text, self._scope()), self.timeline.memory)

    def list_(self, rest: str) -> Lines:
        places, _ = self.symbols.places(rest) if rest else ([self._place()], "")
        source = self.symbols.line_at(places[0])
        lines = render.source_listing(self.symbols, source) if source is not None else None
        return lines if lines is not None else self.disassemble(rest)

    def disassemble(self, rest: str) -> Lines:
        marked = self.timeline.look().place
        if rest:
            middle = self.symbols.places(rest)[0][0]
        elif self._listed is not None:
            middle = Place(self._listed.func, self._listed.place + 2 * render.AROUND + 1)
        else:
            middle = self._place()
        lines = render.listing(self.symbols, middle, marked)
        self._listed = middle if lines else None
        return lines or ["no more instructions"]

    def print_(self, rest: str) -> Lines:
        variable = self._scope().variable(rest)
        if variable is not None:
            return [f"{variable.type} {variable.text}"]
        return [self._shown(evaluate(rest, self._scope()))]

    def _shown(self, found: Operand) -> str:
        """A value as a line."""
        if found.kind is not None:
            return f"{found.kind.name} {found.kind.text(found.data, self.timeline.memory)}"
        if found.value is not None:
            bits = 32 if found.value.type == "i32" else 64
            return f"{found.value} ({found.value.number % 2**bits:#x})"
        return str(found.number)

    def help(self, rest: str) -> Lines:
        shown = [named(rest)] if rest else COMMANDS
        for command in shown:
            forms = ", ".join([command.name, *command.short])
            yield f"{forms + ' ' + command.words:<46} {command.help}"

    def quit(self, _rest: str) -> Lines:
        raise Quit


def raw_type(size: int) -> CType:
    """The type of some bytes of which nothing else is known: a number, or just bytes."""
    name = f"{size} bytes"
    return c_types.Number(name, size, is_signed=False) if size in (1, 2, 4, 8) else CType(name, size)


def count_of(rest: str, least: int = 1) -> int:
    """A number of at least that; 1 if there are no words."""
    if not rest:
        return 1
    number = number_of(rest)
    if number is None or number < least:
        raise BadCommandError(f"{rest} is no number from {least} on")
    return number


def taking_nothing(rest: str) -> None:
    """Refuses words after a command that takes none."""
    if rest:
        raise BadCommandError(f"{rest} is one word too many")


def saved(found: Breakpoint) -> str:
    """The command that sets a breakpoint."""
    if found.log is not None:
        return f"log {found.words} {found.log}"
    condition = f" if {found.condition}" if found.condition else ""
    return f"{'tbreak' if found.is_temporary else 'break'} {found.words}{condition}"


COMMANDS = [
    Command("run", ("r",), "[TURNS]", "runs from the first turn to a breakpoint or the end", Commands.run),
    Command("continue", ("c",), "[TURNS]", "runs on to a breakpoint or the end", Commands.continue_),
    Command("step", ("s", "step-line", "sl"), "[COUNT]", "runs to another line; without lines it makes turns", Commands.step),
    Command("next", ("n", "next-line", "nl"), "[COUNT]", "the same, over calls", Commands.next),
    Command("stepi", ("si",), "[TURNS]", "makes turns, up to a breakpoint", Commands.stepi),
    Command("nexti", ("ni",), "[COUNT]", "makes a turn, and runs over a call", Commands.nexti),
    Command("finish", ("fin",), "", "runs to where the frame has returned", Commands.finish),
    Command("until", ("u", "advance"), "PLACE", "runs to a place", Commands.until),
    Command("reverse-step", ("rs", "reverse-line", "rl"), "[COUNT]", "goes back to the line before; without lines by turns",
            Commands.reverse_step),
    Command("reverse-stepi", ("rsi",), "[TURNS]", "takes turns back", Commands.reverse_stepi),
    Command("reverse-continue", ("rc",), "", "runs back to a breakpoint or the first turn", Commands.reverse_continue),
    Command("goto", ("g",), "TURN", "goes to a turn, forward or back", Commands.goto),
    Command("break", ("b",), "[PLACE] [if EXPRESSION]", "sets a breakpoint: FUNC, FUNC:PLACE or FILE:LINE",
            Commands.break_),
    Command("tbreak", ("tb",), "[PLACE] [if EXPRESSION]", "sets one that stops once", Commands.tbreak),
    Command("log", ("dprintf",), "PLACE TEXT", "tells a text there, with {EXPRESSION} as its value", Commands.log),
    Command("condition", ("cond",), "NUMBER [EXPRESSION]", "gives a breakpoint a condition, or takes it away",
            Commands.condition),
    Command("ignore", (), "NUMBER COUNT", "lets a breakpoint pass so many times", Commands.ignore),
    Command("save", (), "breakpoints FILE", "writes the commands that set all breakpoints", Commands.save),
    Command("display", (), "[EXPRESSION]", "shows a value at each stop", Commands.display),
    Command("undisplay", (), "[NUMBER]", "ends that, or all of it", Commands.undisplay),
    Command("watch", ("wa",), "WHAT", "stops where a variable changes, or bytes: NAME, or ADDRESS [LENGTH]", Commands.watch),
    Command("last-write", ("lw",), "WHAT", "goes back to what wrote it last, also the same value", Commands.last_write),
    Command("delete", ("d",), "[NUMBER]", "takes a breakpoint or a watchpoint away, or all", Commands.delete),
    Command("info", ("i",), "WHAT", "breakpoints, locals, variables, globals, stack, source, memory, output, functions",
            Commands.info),
    Command("backtrace", ("bt", "where"), "[full] [COUNT]", "the frames, the innermost first", Commands.backtrace),
    Command("frame", ("f",), "[NUMBER]", "looks at a frame", Commands.frame),
    Command("x", (), "[/FORMAT] ADDRESS", "memory: x/4xw 1024, x/s local 0", Commands.examine),
    Command("list", ("l",), "[PLACE]", "the source, or the instructions, around a place", Commands.list_),
    Command("disassemble", ("dis",), "[PLACE]", "the instructions around a place", Commands.disassemble),
    Command("print", ("p",), "EXPRESSION", "a number: local 3, operand 0, a name, *1024, sums", Commands.print_),
    Command("help", ("h",), "[COMMAND]", "this list", Commands.help),
    Command("quit", ("q", "exit"), "", "ends", Commands.quit),
]


def named(word: str) -> Command:
    """The command of a name, a short form, or the begin of one name alone."""
    exact = [command for command in COMMANDS if word == command.name or word in command.short]
    found = exact or [command for command in COMMANDS if command.name.startswith(word)]
    if len(found) != 1:
        told = f"; is it {' or '.join(command.name for command in found)}?" if found else "; see help"
        raise BadCommandError(f"{word} is no command{told}")
    return found[0]
