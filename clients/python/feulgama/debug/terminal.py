"""The terminal of the debugger: reads lines, from a user or from a script, and shows what they are answered."""
from __future__ import annotations

import contextlib
import itertools
import os
import signal
import sys
import time
from collections.abc import Callable, Iterable, Iterator
from pathlib import Path
from types import FrameType
from typing import TextIO

from feulgama.debug.commands import COMMANDS, Commands, Quit
from feulgama.debug.running import Interrupt
from feulgama.debug.timeline import Timeline
from feulgama.errors import FeulgamaError, NoShimError, ShimEndedError

PROMPT = "(feulgama) "
HISTORY = os.path.expanduser("~/.feulgama_history")
# What a module writes, and its names, may have characters that a terminal takes for commands. They are shown by number. So are
# surrogates, which represent bytes that a user has typed and that are not UTF-8.
CONTROLS = {number: f"\\x{number:02x}" for number in (*range(32), *range(127, 160)) if chr(number) not in "\t\n"}
CONTROLS |= {number: f"\\u{number:04x}" for number in range(0xD800, 0xE000)}
LONG = 100  # lines, from which on Ctrl-C ends a text
TAKES_PLACE = {"break", "b", "until", "u", "list", "l", "disassemble", "dis"}


class NotTextError(FeulgamaError):
    """Commands that are not text in UTF-8."""


def words_for(commands: Commands, before: str) -> list[str]:
    """The words that may come at the end of a line that is being written."""
    head, space, _ = before.partition(" ")
    if not space:
        return [command.name for command in COMMANDS]
    if head in TAKES_PLACE:
        lines = commands.symbols.lines
        files = [file.rpartition("/")[2] + ":" for file in lines.files] if lines is not None else []
        return [*commands.symbols.names.functions.values(), *files]
    if head in ("info", "i"):
        return ["breakpoints", "locals", "variables", "globals", "stack", "source", "memory", "output", "functions"]
    return ["local", "operand", "turn"] if head in ("print", "p", "x") else []


@contextlib.contextmanager
def handling(handler: Callable[[int, FrameType | None], None]) -> Iterator[None]:
    """Lets a handler take Ctrl-C."""
    before = signal.signal(signal.SIGINT, handler)
    try:
        yield
    finally:
        signal.signal(signal.SIGINT, before)


class Interrupts:
    """What Ctrl-C does at a terminal: it breaks off a line that is read, and at any other moment what is running. One that
    comes between two commands does nothing."""

    def __init__(self, timeline: Timeline) -> None:
        self._interrupted, self._is_reading = timeline.interrupted, False

    def __call__(self, _number: int, _frame: FrameType | None) -> None:
        if not self._is_reading:
            self._interrupted.set()
            return
        self._is_reading = False  # so that nothing that comes while this one is handled is raised, too
        raise KeyboardInterrupt

    def reading(self, read: Callable[[], str]) -> str:
        """A line. Raises KeyboardInterrupt."""
        try:
            self._is_reading = True
            return read()
        finally:
            self._is_reading = False


def asked(commands: Commands, interrupts: Interrupts) -> Iterator[str]:
    """The lines of a user at a terminal, with completion and a history if prompt_toolkit is there."""
    read = reader(commands)
    while True:
        try:
            line = interrupts.reading(read)
        except KeyboardInterrupt:
            continue
        except UnicodeDecodeError:
            print("a command is text in UTF-8, and this line is not", flush=True)
            continue
        except EOFError:
            return
        yield line


def reader(commands: Commands) -> Callable[[], str]:
    """What reads one line of a terminal."""
    try:
        from prompt_toolkit import PromptSession
        from prompt_toolkit.completion import CompleteEvent, Completer, Completion
        from prompt_toolkit.document import Document
        from prompt_toolkit.history import FileHistory
    except ImportError:
        return lambda: input(PROMPT)

    class Words(Completer):
        """Completes the last word of a line."""

        def get_completions(self, document: Document, complete_event: CompleteEvent) -> Iterator[Completion]:
            before = document.text_before_cursor
            word = before.rpartition(" ")[2]
            for found in words_for(commands, before):
                if found.startswith(word):
                    yield Completion(found, start_position=-len(word))

    class Kept(FileHistory):
        """The lines of earlier sessions, as far as their file can be read and written."""

        def load_history_strings(self) -> Iterable[str]:
            try:
                return list(super().load_history_strings())
            except OSError:
                return []

        def store_string(self, string: str) -> None:
            with contextlib.suppress(OSError, UnicodeError):
                super().store_string(string)

    session: PromptSession[str] = PromptSession(history=Kept(HISTORY), completer=Words(),
                                                complete_while_typing=False)
    return lambda: session.prompt(PROMPT)


def lines_of(file: Path | None) -> list[str]:
    """The lines of a file of commands; none without a file. Raises OSError if it cannot be read, and NotTextError if it is
    not UTF-8."""
    try:
        return [] if file is None else file.read_text(encoding="utf-8").splitlines()
    except UnicodeDecodeError as error:
        raise NotTextError(f"{file}: commands are text in UTF-8, and byte {error.start} is not") from error


def scripted(source: Iterable[str]) -> Iterator[str]:
    """The lines of a script, each shown as if a user had written it. Raises NotTextError if standard input is not text."""
    try:
        for line in source:
            print(PROMPT + line.rstrip("\n"))
            yield line.rstrip("\n")
    except UnicodeDecodeError as error:
        raise NotTextError("standard input: commands are text in UTF-8, and this is not") from error


class Progress:
    """Says at a terminal that a search goes on, once it has taken two seconds, and every two seconds then."""

    def __init__(self, timeline: Timeline) -> None:
        self._begin = self._told = time.monotonic()
        self._timeline = timeline

    def __call__(self) -> None:
        now = time.monotonic()
        if now - self._told > 2:
            self._told = now
            print(f"still looking for writes after {now - self._begin:.0f} seconds; Ctrl-C breaks it off", file=sys.stderr)


def plain(line: str) -> str:
    """A line as a terminal can show it."""
    return line.translate(CONTROLS)


def answer(commands: Commands, line: str) -> None:
    """Does what a line asks for and shows what comes of it; what goes wrong is shown too. Ctrl-C breaks off what is running,
    and then a long text."""
    timeline, pressed = commands.timeline, Interrupt()

    def interrupt(_number: int, _frame: FrameType | None) -> None:
        timeline.interrupted.set()
        pressed.set()

    timeline.interrupted.clear()
    timeline.searching = Progress(timeline)
    try:
        with handling(interrupt):
            lines = commands.answer(line)
            pressed.clear()  # a move that was broken off is shown
            for count, shown in enumerate(lines):
                if count >= LONG and pressed.is_set():
                    print("interrupted")
                    break
                print(plain(shown))
    except (ShimEndedError, NoShimError):
        raise
    except FeulgamaError as error:
        print(plain(str(error)))


def debug(commands: Commands, source: TextIO, first: Iterable[str] = ()) -> int:
    """Answers the lines of a user or a script, up to its end or `quit`; before them some others."""
    is_user = source.isatty()
    interrupts = Interrupts(commands.timeline)
    with handling(interrupts) if is_user else contextlib.nullcontext():
        for shown in commands.stopped():
            print(plain(shown))
        sys.stdout.flush()
        return answer_all(commands, itertools.chain(scripted(first), asked(commands, interrupts) if is_user
                                                    else scripted(source)), is_user)


def answer_all(commands: Commands, lines: Iterable[str], is_user: bool) -> int:
    """Answers lines up to the last one or `quit`; the status. An empty line of a user's is the one before."""
    last = ""
    for line in lines:
        last = line.strip() or (last if is_user else "")
        if last.startswith("#"):
            continue
        try:
            answer(commands, last)
        except Quit:
            break
        except ShimEndedError as error:
            print(error, file=sys.stderr)
            return 1
        sys.stdout.flush()
    return 0
