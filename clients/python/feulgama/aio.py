"""A shim for asyncio: requests are sent at once, and answered in their order; waits by callers of their own."""
from __future__ import annotations

import asyncio
import collections
import contextlib
import json
import os
import signal as signals
import time
from collections.abc import Coroutine, Mapping, Sequence
from dataclasses import dataclass
from types import TracebackType
from typing import Any, Self, TypeVar

from feulgama import requests
from feulgama.aio_caller import Asked, Caller
from feulgama.callers import pause, pipes
from feulgama.calls import Calls
from feulgama.config import Config, digest_of
from feulgama.errors import (BadReplyError, ExistsError, FeulgamaError, NoShimError, RefusalError, ShimEndedError,
                             TimedOutError, WrongStatusError, ended)
from feulgama.lowering import lower as lowered
from feulgama.model import Ran, State, Stream
from feulgama.operation import Awaits, Request
from feulgama.program import serving
from feulgama.requests import CHANGES, JOURNAL, ran_of
from feulgama.said import CHUNK, PATIENCE, Line, Said

T = TypeVar("T")
WAITERS = 64  # as many as tasks
CLOSING, LAST_WORDS = 5.0, 0.2
Future = asyncio.Future[Any]


@dataclass(frozen=True, slots=True)
class Running:
    """A shim's process, what controls it, and the tasks that read what it says and that wait for its end."""
    process: asyncio.subprocess.Process
    control: Caller
    waiters: list[Caller]
    said: asyncio.Task[None]
    over: asyncio.Task[None]


class AsyncShim(Calls, Awaits):
    """A `wasm-shim serve` for one event loop: `async with AsyncShim() as shim`. A request is sent when its coroutine
    begins, whether or not earlier ones are answered; a `wait` once they are, and it holds up no other. Each method raises
    what those of Shim raise. A coroutine that is cancelled does not take its request back. `workers` is how many threads
    run the shim's tasks, from 1 to 16; `waiters` for how many tasks may be waited at once, from 1 to 129. Without
    `explain` refusals have no reasons."""

    def __init__(self, program_file: str | os.PathLike[str] | None = None, *, workers: int | None = None,
                 explain: bool = True, waiters: int = WAITERS) -> None:
        self._words, self._explain, self._waiters = serving(program_file, workers, explain), explain, waiters
        self._asked = 0
        self._now: Running | None = None
        self._free: collections.deque[Caller] = collections.deque()
        self._held: collections.deque[Future] = collections.deque()
        self._open: dict[str, Future] = {}
        self._unexplained: dict[Line, tuple[RefusalError, Future]] = {}
        self._said = Said()
        self._is_over, self._bad = asyncio.Event(), list[BadReplyError]()
        self._ended: FeulgamaError | None = None
        self._cleaning: set[asyncio.Task[None]] = set()

    async def __aenter__(self) -> Self:
        made = pipes(self._waiters)
        try:
            process = await asyncio.create_subprocess_exec(
                *self._words, *made.words(), stdin=asyncio.subprocess.DEVNULL, stdout=asyncio.subprocess.DEVNULL,
                stderr=asyncio.subprocess.PIPE, pass_fds=made.given, start_new_session=True)
        except OSError as error:
            made.close()
            raise NoShimError(f"{self._words[0]}: {error.strerror}") from error
        except BaseException:
            made.close()
            raise
        made.close_given()
        control, *waiters = (Caller(ends, self._answer) for ends in made.ends)
        self._free.extend(waiters)
        self._now = Running(process, control, waiters, asyncio.create_task(self._listen(process)),
                            asyncio.create_task(self._end(process)))
        return self

    async def __aexit__(self, _kind: type[BaseException] | None, _value: BaseException | None,
                        _trace: TracebackType | None) -> None:
        await self.close()

    @property
    def _running(self) -> Running:
        if self._now is None:
            raise ShimEndedError("the shim is not started: it is by `async with`")
        return self._now

    @property
    def pid(self) -> int:
        """The number of the shim's process."""
        return self._running.process.pid

    @property
    def left(self) -> int:
        """How many requests the shim answers yet, at least; then it refuses each one as JournalFullError."""
        return max(0, JOURNAL - self._asked)

    async def close(self) -> None:
        """Ends the shim, after the requests that were sent. What waits for a task ends with ClosedError."""
        if self._now is None:
            return
        self._now.control.close_lines()
        await asyncio.wait({self._now.over}, timeout=CLOSING)
        self.kill_shim()
        await self._now.over

    def kill_shim(self) -> None:
        """Ends the shim at once. What waits for a reply ends with ShimEndedError."""
        if self._running.process.returncode is None:
            with contextlib.suppress(ProcessLookupError):
                os.killpg(self._running.process.pid, signals.SIGKILL)

    async def call(self, request: Request[T]) -> T:
        """The result of a request."""
        if request.op == "wait":
            return await self._wait(request)
        return await self._ask(request)

    async def _ask(self, request: Request[T]) -> T:
        """The result of a request to the caller that controls. If this is cancelled, the request is not answered yet."""
        asked = self._send(self._running.control, request)
        asked.add_done_callback(retrieved)
        result: T = await asyncio.shield(asked)
        return result

    def _send(self, caller: Caller, request: Request[Any]) -> Future:
        """Sends a request; its result."""
        if self._ended is not None:
            raise self._ended
        self._asked += 1
        return caller.send(request)

    # Waits.

    async def wait(self, task: str, timeout: float | None = None) -> State:
        """Waits until a task is not running; its state. Raises TimedOutError after so many seconds."""
        try:
            async with asyncio.timeout(timeout):
                return await self._wait(requests.wait(task))
        except TimeoutError as error:
            raise TimedOutError(f"task {task} still runs after {timeout} seconds") from error

    async def _wait(self, request: Request[T]) -> T:
        """The result of a wait, by a caller of its own, once what was sent before is answered. Whoever waits for a task
        while another wait for it is not answered is told the same, unless the task was changed between."""
        task, before = json.loads(request.line)["id"], [asked.future for asked in self._running.control.pending]
        if before:
            await asyncio.wait(before[-1:])
        begin = time.monotonic()
        while task not in self._open and not self._free and self._ended is None:
            found = await self._hold(request, task, begin)
            if found is not None:
                return found
        if task not in self._open:
            self._open[task] = self._send(self._free.popleft() if self._free else self._running.control, request)
            self._open[task].add_done_callback(retrieved)
        result: T = await asyncio.shield(self._open[task])
        return result

    async def _hold(self, request: Request[T], task: str, begin: float) -> T | None:
        """Holds a wait for which no caller is free, until one may be; or what it is answered, if that is known before. It
        asks for the state now and then."""
        held: Future = asyncio.get_running_loop().create_future()
        self._held.append(held)
        while not (await asyncio.wait({held}, timeout=pause(begin)))[0]:
            if (found := await self._ask(requests.glance(request, task))) is not None:
                return found
        return None

    def _forget(self, request: Request[Any]) -> None:
        """Lets the next wait for a task that a request has changed be a new one, since those that were sent before it was
        answered may tell what was true before it."""
        if request.op in CHANGES and self._open:
            self._open.pop(json.loads(request.line).get("id"), None)

    def _let_others_wait(self) -> None:
        """Tells those for whom no caller was free that one may be."""
        while self._held:
            held = self._held.popleft()
            if not held.done():
                held.set_result(None)

    # What the shim writes.

    def _answer(self, caller: Caller, asked: Asked | None, line: bytes) -> None:
        """Gives a line to the request that it answers; without one the replies have ended, or there is one too many."""
        if asked is None:
            if caller is self._running.control:
                self._bad += [BadReplyError(line)] if line else []
                self._is_over.set()
            return
        self._forget(asked.request)
        try:
            result = asked.request.result(line)
        except RefusalError as refused:
            self._unexplained[asked.line] = refused, asked.future
            if self._explain and not self._said.is_known(asked.line):
                asyncio.get_running_loop().call_later(PATIENCE, self._give_up, asked.line)
            self._refuse()
        except BadReplyError as bad:
            self._bad.append(bad)
            self._is_over.set()
            if not asked.future.done():
                asked.future.set_exception(bad)
        else:
            if not asked.future.done():
                asked.future.set_result(result)
        if caller is not self._running.control:
            self._open = {task: one for task, one in self._open.items() if one is not asked.future}
            self._free.append(caller)
            self._let_others_wait()

    async def _end(self, process: asyncio.subprocess.Process) -> None:
        """Waits until the shim ends, and ends what waits for a reply."""
        await self._is_over.wait()
        try:
            status = await asyncio.wait_for(process.wait(), LAST_WORDS)
        except TimeoutError:
            self.kill_shim()
            status = await process.wait()
        await asyncio.wait({self._running.said}, timeout=LAST_WORDS)
        self._running.said.cancel()
        self._said.end()
        self._refuse()
        self._ended = self._bad[0] if self._bad else ended("the shim ended", status, self._said.other())
        for caller in (self._running.control, *self._running.waiters):
            for asked in caller.pending:
                if not asked.future.done():
                    asked.future.set_exception(self._ended)
            caller.close()
        self._let_others_wait()

    async def _listen(self, process: asyncio.subprocess.Process) -> None:
        """Reads what the shim says, which has the reasons of refusals."""
        while process.stderr is not None and (data := await process.stderr.read(CHUNK)):
            self._said.feed(data)
            self._refuse()
        self._said.end()
        self._refuse()

    def _give_up(self, line: Line) -> None:
        """Lets a refusal be without its reason, which has not come."""
        if line in self._unexplained:
            self._said.give_up()
            self._refuse(line)

    def _refuse(self, given_up: Line | None = None) -> None:
        """Hands on the refusals whose reason has come, or will not."""
        for line in [line for line in self._unexplained
                     if not self._explain or line == given_up or self._said.is_known(line)]:
            refused, future = self._unexplained.pop(line)
            if not future.done():
                future.set_exception(refused.explained(self._said.known(line)))

    # What is made of several requests.

    async def ensure(self, data: bytes) -> str:
        """Stores bytes unless they are there; their digest."""
        with contextlib.suppress(ExistsError):
            await self.put(data)
        return digest_of(data)

    async def run(self, module: bytes, args: Sequence[str] = ("module",), env: Mapping[str, str] | None = None,
                  memory_limit: int | None = None, lower: bool = False, timeout: float | None = None) -> Ran:
        """Runs a module to its end as one task, which is deleted then. The module stays stored: another coroutine
        may run it too. With `lower` it is lowered first, which raises LoweringError if that cannot be done. After
        `timeout` seconds the task is killed, and TimedOutError raised. If it is cancelled, the task is killed too."""
        module = lowered(module).data if lower else module
        config = Config(digest_of(module), args, env or {}, memory_limit)
        await self.ensure(module)
        task = self.new_id()
        try:
            await self.create(config, task)
            return await self._run(task, timeout)
        except asyncio.CancelledError:
            self._in_background(self._discard(task))
            raise

    async def _run(self, task: str, timeout: float | None) -> Ran:
        """Runs a task to its end, and deletes it, also if a request is refused."""
        try:
            await self.start(task)
            state, late = await self._waited(task, timeout)
            out, err = await asyncio.gather(self.output(task, Stream.STDOUT), self.output(task, Stream.STDERR))
            if state.exit is not None:
                await self.delete(task)
        except FeulgamaError:
            await self._discard(task)
            raise
        if late is not None:
            raise TimedOutError(str(late), ran_of(state, out, err)) from late
        return ran_of(state, out, err)

    async def _waited(self, task: str, timeout: float | None) -> tuple[State, TimedOutError | None]:
        """The state of a task that has ended by itself, or was killed because it has not in time."""
        try:
            return await self.wait(task, timeout), None
        except TimedOutError as error:
            return await self._killed(task), error

    async def _killed(self, task: str) -> State:
        """Ends a task that may have ended by itself; its state then. It ends with its slice, so the wait holds up the caller
        that controls for a moment only, and all others may be taken."""
        with contextlib.suppress(WrongStatusError):
            await self.kill(task)
        return await self._ask(requests.wait(task))

    async def _discard(self, task: str) -> None:
        """Ends a task of which nobody wants to know, and deletes it."""
        with contextlib.suppress(FeulgamaError):
            await self._killed(task)
            await self.delete(task)

    def _in_background(self, work: Coroutine[Any, Any, None]) -> None:
        """Does something for which nobody waits."""
        doing = asyncio.create_task(work)
        self._cleaning.add(doing)
        doing.add_done_callback(self._cleaning.discard)


def retrieved(future: Future) -> None:
    """Looks at the exception of a future that nobody may wait for any more, so that asyncio does not tell of it."""
    if not future.cancelled():
        future.exception()
