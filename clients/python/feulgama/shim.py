"""A shim whose requests are answered one after another."""
from __future__ import annotations

import collections
import contextlib
import os
import threading
import time
from collections.abc import Iterator, Mapping, Sequence
from functools import partial
from types import TracebackType
from typing import Self, TypeVar

from feulgama import requests
from feulgama.answering import Answering
from feulgama.callers import pause
from feulgama.config import Config, digest_of
from feulgama.confinement import Confinement
from feulgama.errors import (BadReplyError, ExistsError, FeulgamaError, NoContentError, TimedOutError,
                             WrongStatusError)
from feulgama.lowering import lower as lowered
from feulgama.model import Ran, State, Stream
from feulgama.operation import Request
from feulgama.pipe import LAST_WORDS, PATIENCE, Pipe
from feulgama.program import program, serving
from feulgama.requests import CHANGES, JOURNAL, ran_of
from feulgama.said import Line

T = TypeVar("T")
WAITERS = 4


class Shim(Answering):
    """A `wasm-shim serve` that this object has started, and ends when it is closed. Several threads may use it: a
    request waits until the one before it is answered. Each method raises the RefusalError that the request is answered,
    ShimEndedError if the shim ends, and BadReplyError if it writes what is no reply. `workers` is how many threads run
    its tasks, from 1 to 16; `waiters` for how many tasks threads may `wait` at once, from 1 to 129. Without `explain`
    refusals have no reasons. It runs with the rights that `confined` leaves it, or with those of this process."""

    def __init__(self, program_file: str | os.PathLike[str] | None = None, *, workers: int | None = None,
                 explain: bool = True, waiters: int = WAITERS, confined: Confinement | None = None) -> None:
        self._program_file, self._workers, self._explain, self._waiters = program_file, workers, explain, waiters
        self._confined = confined
        words = serving(program_file, workers, explain)
        self._pipe = Pipe(words if confined is None else [*confined.words, *words], waiters,
                          None if confined is None else confined.user)
        self._lock = threading.Lock()
        # How many runs use each module, and the modules that a run has stored.
        self._runs, self._stored, self._storing = collections.Counter[str](), set[str](), threading.Lock()

    def __enter__(self) -> Self:
        return self

    def __exit__(self, _kind: type[BaseException] | None, _value: BaseException | None,
                 _trace: TracebackType | None) -> None:
        self.close()

    @property
    def pid(self) -> int:
        """The number of the shim's process."""
        return self._pipe.pid

    @property
    def program(self) -> list[str]:
        """The words that call its program."""
        return program(self._program_file)

    @property
    def left(self) -> int:
        """How many requests the shim answers yet, at least; then it refuses each one as JournalFullError."""
        return max(0, JOURNAL - self._pipe.asked)

    def close(self) -> None:
        """Ends the shim. Its board is lost. A request of another thread that is not answered in a moment is broken off."""
        if self._pipe.is_closed:
            return
        self._pipe.is_closed = True
        is_idle = self._lock.acquire(timeout=LAST_WORDS)
        if not is_idle:
            self._pipe.kill()
            is_idle = self._lock.acquire(timeout=PATIENCE)
        try:
            self._pipe.close()
        finally:
            if is_idle:
                self._lock.release()

    def another(self) -> Shim:
        """A new shim of the same program, with as many workers."""
        return Shim(self._program_file, workers=self._workers, explain=self._explain, waiters=self._waiters,
                    confined=self._confined)

    def kill_shim(self) -> None:
        """Ends the shim at once, also while another thread waits for a reply."""
        self._pipe.kill()

    def call(self, request: Request[T]) -> T:
        """The result of a request."""
        with self._lock:
            line = self._pipe.exchange(request.line)
            if request.op in CHANGES:
                self._pipe.changed(request.line)
            return self._result(request, line, self._pipe.line())

    def _result(self, request: Request[T], line: bytes, asked: Line) -> T:
        """What a line answers to a request."""
        try:
            return request.result(line, partial(self._why, asked))
        except BadReplyError as bad:
            self._pipe.refuse(line)
            raise bad

    def wait(self, task: str, timeout: float | None = None) -> State:
        """Waits until a task is not running; its state. Other threads may ask meanwhile. While no caller is free for it, it
        asks for the state now and then. Raises TimedOutError after so many seconds."""
        request, begin = requests.wait(task), time.monotonic()
        until = begin + (float("inf") if timeout is None else timeout)
        try:
            while (found := self._pipe.ask_wait(task, request.line, pause(begin, until))) is None:
                if time.monotonic() >= until:
                    raise TimedOutError("no caller was free for the wait")
                if (state := self.call(requests.glance(request, task))) is not None:
                    return state
            line = self._pipe.answer_to(found, None if timeout is None else max(0.0, until - time.monotonic()))
        except TimedOutError as error:
            raise TimedOutError(f"task {task} still runs after {timeout} seconds") from error
        return self._result(request, line, Line(found.name, found.number))

    def call_all(self, asked: Sequence[Request[T]]) -> list[T | FeulgamaError]:
        """The results of several requests, sent without waiting for the replies between them. A request that is
        refused has its RefusalError as result, and does not stop the others."""
        with self._lock:
            lines = self._pipe.exchange_many(b"".join(request.line for request in asked), len(asked)).split(b"\n")
            for request in asked:
                if request.op in CHANGES:
                    self._pipe.changed(request.line)
            last = self._pipe.line()
        results: list[T | FeulgamaError] = []
        for back, (request, line) in zip(range(len(asked) - 1, -1, -1), zip(asked, lines)):
            try:
                results.append(self._result(request, line, last._replace(number=last.number - back)))
            except BadReplyError:
                raise
            except FeulgamaError as refused:
                results.append(refused)
        return results

    def _why(self, line: Line) -> str | None:
        """The reason of the refusal of a line."""
        return self._pipe.said.why(line) if self._explain else None

    def raw(self, lines: bytes, count: int) -> bytes:
        """The lines that this many lines are answered, as bytes."""
        with self._lock:
            return self._pipe.exchange_many(lines, count)

    def ensure(self, data: bytes) -> str:
        """Stores bytes unless they are there; their digest. They stay, also if a run has stored them."""
        with self._storing:
            self._put_new(data)
            self._stored.discard(digest_of(data))
        return digest_of(data)

    def run(self, module: bytes, args: Sequence[str] = ("module",), env: Mapping[str, str] | None = None,
            memory_limit: int | None = None, lower: bool = False, timeout: float | None = None) -> Ran:
        """Runs a module to its end as one task, which is deleted then. A module that was not stored before is
        removed again, by the last of the threads that run it at once. With `lower` it is lowered first, which raises
        LoweringError if that cannot be done. After `timeout` seconds it is killed, and TimedOutError raised. If it is
        broken off while it waits, as by Ctrl-C, the task is killed too."""
        module = lowered(module).data if lower else module
        config = Config(digest_of(module), args, env or {}, memory_limit)
        with self._in_use(config.module):
            return self._run(self._created(module, config), timeout)

    @contextlib.contextmanager
    def _in_use(self, digest: str) -> Iterator[None]:
        """Counts a run of a module. After the last of those at once a module that one of them has stored is removed."""
        with self._storing:
            self._runs[digest] += 1
        try:
            yield
        finally:
            with self._storing:
                self._runs -= collections.Counter([digest])
                if digest in self._stored and digest not in self._runs:
                    self._stored.discard(digest)
                    with contextlib.suppress(FeulgamaError):
                        self.remove(digest)

    def _created(self, module: bytes, config: Config) -> str:
        """The id of a new task. Its module is stored before, and once more if another thread removes it just then."""
        while True:
            with self._storing:
                if self._put_new(module):
                    self._stored.add(config.module)
            with contextlib.suppress(NoContentError):
                return self.create(config).id

    def _run(self, task: str, timeout: float | None) -> Ran:
        """Runs a task to its end, and deletes it, also if this is broken off."""
        try:
            self.start(task)
            state, late = self._waited(task, timeout)
            outputs = self.output(task, Stream.STDOUT), self.output(task, Stream.STDERR)
            if state.exit is not None:
                self.delete(task)
        except BaseException:
            self._discard(task)
            raise
        if late is not None:
            raise TimedOutError(str(late), ran_of(state, *outputs)) from late
        return ran_of(state, *outputs)

    def _waited(self, task: str, timeout: float | None) -> tuple[State, TimedOutError | None]:
        """The state of a task that has ended by itself, or was killed because it has not in time."""
        try:
            return self.wait(task, timeout), None
        except TimedOutError as error:
            return self._killed(task), error

    def _killed(self, task: str) -> State:
        """Ends a task that may have ended by itself; its state then. It ends with its slice, so the wait holds up the caller
        that controls for a moment only, and all others may be taken."""
        with contextlib.suppress(WrongStatusError):
            self.kill(task)
        return self.call(requests.wait(task))

    def _discard(self, task: str) -> None:
        """Ends a task of which nobody wants to know, and deletes it."""
        with contextlib.suppress(FeulgamaError):
            self._killed(task)
            self.delete(task)

    def _put_new(self, data: bytes) -> bool:
        """Stores bytes; whether they were not there before."""
        try:
            self.put(data)
        except ExistsError:
            return False
        return True
