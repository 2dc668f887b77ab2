"""Waits, which hold up nothing else: by threads and by asyncio, with a limit of time or cancelled; and killed clients."""
from __future__ import annotations

import asyncio
import os
import random
import subprocess
import sys
import threading
import time
import unittest
from collections.abc import Callable
from pathlib import Path
from unittest import mock

import pytest

import feulgama
from feulgama import requests
from feulgama.aio import WAITERS
from feulgama.model import Cause, Status
from feulgama.waits import Wait, Waiter
from tests.support import CLIENT, EXIT_7, FOREVER_BYTES, SHIM, module_of

OLD, CLIENT_TO_KILL = (Path(__file__).with_name(name) for name in ("old_shim.py", "killed_client.py"))
NO_MEMORY = feulgama.NoMemoryError("output", {"error": "NoMemory", "number": 17})
OTHER_FOREVER = FOREVER_BYTES + b"\0\2\1a"  # with a custom section, so that it is another content
SOON = 0.3
KILLS = 50
MARK = "FEULGAMA_TEST_OF_A_KILLED_CLIENT"


class Old(unittest.TestCase):
    """A program of before says that it does not know `--caller`."""

    def test_shim(self) -> None:
        with feulgama.Shim(OLD) as shim, self.assertRaisesRegex(feulgama.OldShimError, "too old.*--caller"):
            shim.gc()
        with feulgama.Shim(OLD) as shim, self.assertRaisesRegex(feulgama.OldShimError, "too old.*--caller"):
            shim.wait("a")

    def test_asyncio(self) -> None:
        async def ask() -> None:
            async with feulgama.AsyncShim(OLD) as shim:
                await shim.gc()
        with self.assertRaisesRegex(feulgama.OldShimError, "too old.*--caller"):
            asyncio.run(ask())

    def test_callers_that_there_cannot_be(self) -> None:
        for waiters in (0, 130):
            with self.assertRaises(feulgama.NoShimError):
                feulgama.Shim(SHIM, waiters=waiters)


class Threads(unittest.TestCase):
    def setUp(self) -> None:
        self.shim = self.enterContext(feulgama.Shim(SHIM, waiters=2))

    def endless(self) -> str:
        task = self.shim.create(feulgama.Config(self.shim.ensure(FOREVER_BYTES))).id
        self.shim.start(task)
        return task

    def in_thread(self, task: str, states: list[feulgama.State]) -> threading.Thread:
        thread = threading.Thread(target=lambda: states.append(self.shim.wait(task)), daemon=True)
        thread.start()
        return thread

    @pytest.mark.clock
    def test_others_ask_meanwhile(self) -> None:
        """Six threads wait for two tasks, by two callers. A kill of one is heard, and its waits end alone."""
        tasks, states = [self.endless(), self.endless()], list[feulgama.State]()
        threads = [self.in_thread(task, states) for task in 3 * tasks]
        time.sleep(SOON)
        self.assertEqual((self.shim.state(tasks[0]).status, states), (Status.RUNNING, []))
        for count, task in enumerate(tasks, 1):
            self.shim.kill(task)
            for thread in threads[count - 1::2]:
                thread.join(10)
            self.assertEqual(sorted(state.id for state in states), sorted(3 * tasks[:count]))
        self.assertEqual({state.exit.cause for state in states if state.exit is not None}, {Cause.KILL})

    def test_a_limit_of_time(self) -> None:
        task = self.endless()
        for _ in range(5):
            with self.assertRaisesRegex(feulgama.TimedOutError, f"{task} still runs after 0.01 seconds") as found:
                self.shim.wait(task, timeout=0.01)
            self.assertIsInstance(found.exception, TimeoutError)
        self.shim.pause(task)
        self.assertEqual(self.shim.wait(task, timeout=10).status, Status.PAUSED)
        self.shim.resume(task)
        with self.assertRaises(feulgama.TimedOutError):
            self.shim.wait(task, timeout=0.01)
        self.shim.kill(task)
        self.assertEqual(self.shim.wait(task, timeout=10).status, Status.STOPPED)

    def test_no_caller_is_free(self) -> None:
        """A third task cannot be waited for by two callers, until one of the others has ended."""
        tasks = [self.endless() for _ in range(3)]
        for task in tasks[:2]:
            with self.assertRaises(feulgama.TimedOutError):
                self.shim.wait(task, timeout=0.05)
        with self.assertRaises(feulgama.TimedOutError):
            self.shim.wait(tasks[2], timeout=0.05)
        states: list[feulgama.State] = []
        thread = self.in_thread(tasks[2], states)
        self.shim.kill(tasks[2])
        self.shim.kill(tasks[0])
        thread.join(10)
        self.assertEqual([state.id for state in states], [tasks[2]])

    def take_all_callers(self) -> None:
        """Lets each caller wait for a task that does not end."""
        for _ in range(2):
            with self.assertRaises(feulgama.TimedOutError):
                self.shim.wait(self.endless(), timeout=0.05)

    def outcome(self, work: Callable[[], object]) -> object:
        """What something comes to within ten seconds, its result or what it raises; None if to nothing."""
        found: list[object] = []

        def do() -> None:
            try:
                found.append(work())
            except BaseException as error:
                found.append(error)
        thread = threading.Thread(target=do, daemon=True)
        thread.start()
        thread.join(10)
        return found[0] if found else None

    def test_a_run_that_takes_too_long_while_no_caller_is_free(self) -> None:
        self.take_all_callers()
        self.assertIsInstance(self.outcome(lambda: self.shim.run(OTHER_FOREVER, timeout=0.05)), feulgama.TimedOutError)
        self.shim.put(OTHER_FOREVER)

    def test_a_run_that_is_broken_off_while_no_caller_is_free(self) -> None:
        self.take_all_callers()
        with mock.patch.object(self.shim, "wait", side_effect=KeyboardInterrupt):
            self.assertIsInstance(self.outcome(lambda: self.shim.run(OTHER_FOREVER)), KeyboardInterrupt)
        self.shim.put(OTHER_FOREVER)

    def test_a_run_that_ends_while_no_caller_is_free(self) -> None:
        """Its state is asked for instead, as is that of a task that is waited for."""
        self.take_all_callers()
        self.assertEqual(self.outcome(lambda: self.shim.run(EXIT_7).exit.code), 7)
        task = self.endless()
        self.shim.pause(task)
        self.assertEqual(self.outcome(lambda: self.shim.wait(task, timeout=5).status), Status.PAUSED)
        with self.assertRaisesRegex(feulgama.NotFoundError, "wait is refused"):
            self.shim.wait("nobody", timeout=5)

    def resumed(self, resume: Callable[[str], object]) -> None:
        """Resumes a task; just before that another thread waits for it. That wait is answered before the change, and its
        answer is read after it."""
        task, pipe, others = self.endless(), self.shim._pipe, list[Wait | None]()
        self.shim.pause(task)
        self.shim.wait(task, timeout=10)
        take, send = pipe._waits._take, pipe._begin
        is_read, goes_on = threading.Event(), threading.Event()
        self.addCleanup(goes_on.set)

        def take_late(waiter: Waiter, data: bytes) -> bool:
            is_read.set()
            goes_on.wait(10)
            return take(waiter, data)

        def send_late(count: int) -> None:
            others.append(pipe.ask_wait(task, requests.wait(task).line, 10))
            is_read.wait(10)
            send(count)

        with mock.patch.object(pipe._waits, "_take", take_late):
            with mock.patch.object(pipe, "_begin", send_late):
                resume(task)
            after = pipe.ask_wait(task, requests.wait(task).line, 10)
            goes_on.set()
            self.shim.kill(task)
            told = [b"" if wait is None else wait.reply.result(10) for wait in (others[0], after)]
        self.assertEqual([line.partition(b'"status":"')[2][:7] for line in told], [b"paused\"", b"stopped"])

    def test_a_wait_that_another_sends_before_a_change(self) -> None:
        """What it is told was true before the change, so it is not told whoever waits after that."""
        self.resumed(self.shim.resume)
        self.resumed(lambda task: self.shim.call_all([requests.resume(task)]))

    def test_a_thread_that_cannot_be_started(self) -> None:
        """The next wait tries once more."""
        task = self.endless()
        self.shim.kill(task)
        with mock.patch("threading.Thread.start", side_effect=RuntimeError), self.assertRaises(RuntimeError):
            self.shim.wait(task)
        self.assertEqual(self.shim.wait(task, timeout=10).status, Status.STOPPED)

    def test_a_thread_that_was_never_started(self) -> None:
        with feulgama.Shim(SHIM) as shim, self.assertRaises(RuntimeError), \
                mock.patch("threading.Thread.start", side_effect=RuntimeError):
            shim.wait("a")

    def test_a_run_that_takes_too_long(self) -> None:
        with self.assertRaises(feulgama.TimedOutError) as found:
            self.shim.run(FOREVER_BYTES, timeout=0.05)
        ran = found.exception.ran
        self.assertTrue(ran is not None and ran.exit.cause is Cause.KILL)
        self.assertEqual(self.shim.gc(), ())
        self.assertEqual(self.shim.run(EXIT_7, timeout=10).exit.code, 7)

    def test_a_run_that_is_broken_off(self) -> None:
        """By Ctrl-C while it waits: neither its task nor its module is left."""
        tasks, wait = list[str](), self.shim.wait

        def interrupted(task: str, timeout: float | None = None) -> feulgama.State:
            tasks.append(task)
            if len(tasks) == 1:
                raise KeyboardInterrupt
            return wait(task, timeout)

        with mock.patch.object(self.shim, "wait", interrupted), self.assertRaises(KeyboardInterrupt):
            self.shim.run(FOREVER_BYTES)
        with self.assertRaises(feulgama.NotFoundError):
            self.shim.state(tasks[0])
        self.shim.put(FOREVER_BYTES)

    def test_a_run_whose_output_is_refused(self) -> None:
        with mock.patch.object(self.shim, "output", side_effect=NO_MEMORY), self.assertRaises(feulgama.NoMemoryError):
            self.shim.run(EXIT_7)
        self.shim.put(EXIT_7)

    def test_a_run_whose_module_another_thread_removes(self) -> None:
        """Just before its task is made, as at the end of that thread's run."""
        create, calls = self.shim.create, list[feulgama.Config]()

        def late(config: feulgama.Config) -> feulgama.TaskStatus:
            calls.append(config)
            if len(calls) == 1:
                self.shim.remove(config.module)
            return create(config)

        self.shim.put(EXIT_7)
        with mock.patch.object(self.shim, "create", late):
            self.assertEqual(self.shim.run(EXIT_7).exit.code, 7)
        self.shim.put(EXIT_7)

    def test_a_module_that_is_stored_while_it_runs(self) -> None:
        """Whoever has stored it may make tasks of it after the run."""
        wait = self.shim.wait
        with mock.patch.object(self.shim, "wait", lambda *words: (self.shim.ensure(EXIT_7), wait(*words))[1]):
            self.shim.run(EXIT_7)
        self.shim.remove(feulgama.digest_of(EXIT_7))

    def test_runs_of_a_module_at_once(self) -> None:
        """The first one has stored it, and ends first. The last one removes it."""
        wait, others, is_second, goes_on = self.shim.wait, list[threading.Thread](), threading.Event(), threading.Event()
        self.addCleanup(goes_on.set)

        def late(task: str, timeout: float | None = None) -> feulgama.State:
            if not others:
                others.append(threading.Thread(target=self.shim.run, args=(EXIT_7,), daemon=True))
                others[0].start()
                is_second.wait(10)
            else:
                is_second.set()
                goes_on.wait(10)
            return wait(task, timeout)

        with mock.patch.object(self.shim, "wait", late):
            self.assertEqual(self.shim.run(EXIT_7).exit.code, 7)
            goes_on.set()
            others[0].join(10)
        self.shim.put(EXIT_7)

    @pytest.mark.program
    def test_reasons(self) -> None:
        """Of each caller's own lines."""
        for _ in range(3):
            with self.assertRaisesRegex(feulgama.NotFoundError, "nobody"):
                self.shim.wait("nobody")
            with self.assertRaisesRegex(feulgama.NotFoundError, "someone"):
                self.shim.state("someone")

    @pytest.mark.clock
    def test_a_shim_that_is_killed(self) -> None:
        task, found = self.endless(), list[BaseException]()

        def wait() -> None:
            try:
                self.shim.wait(task)
            except feulgama.ShimEndedError as error:
                found.append(error)
        thread = threading.Thread(target=wait, daemon=True)
        thread.start()
        time.sleep(SOON)
        self.shim.kill_shim()
        thread.join(10)
        self.assertEqual(len(found), 1)
        with self.assertRaises(feulgama.ShimEndedError):
            self.shim.wait(task)

    @pytest.mark.clock
    def test_closing_with_waits(self) -> None:
        with feulgama.Shim(SHIM) as shim:
            task = shim.create(feulgama.Config(shim.ensure(FOREVER_BYTES))).id
            shim.start(task)
            with self.assertRaises(feulgama.TimedOutError):
                shim.wait(task, timeout=0.05)
            begin = time.monotonic()
        self.assertLess(time.monotonic() - begin, 1)


class Asyncio(unittest.IsolatedAsyncioTestCase):
    async def asyncSetUp(self) -> None:
        asyncio.get_running_loop().set_debug(False)
        self.shim = await self.enterAsyncContext(feulgama.AsyncShim(SHIM))

    async def endless(self) -> str:
        task = (await self.shim.create(feulgama.Config(await self.shim.ensure(FOREVER_BYTES)))).id
        await self.shim.start(task)
        return task

    @pytest.mark.clock
    async def test_a_short_one_beside_endless_ones(self) -> None:
        endless = [asyncio.create_task(self.shim.run(FOREVER_BYTES)) for _ in range(40)]
        async with asyncio.timeout(60):
            ran = await asyncio.gather(*(self.shim.run(EXIT_7) for _ in range(20)))
        self.assertEqual({found.exit.code for found in ran}, {7})
        self.assertFalse(any(task.done() for task in endless))
        for task in endless:
            task.cancel()
        found = await asyncio.gather(*endless, return_exceptions=True)
        self.assertEqual({type(error) for error in found}, {asyncio.CancelledError})
        async with asyncio.timeout(60):
            while await self.shim.gc() == ():  # the tasks of what was cancelled are deleted
                await asyncio.sleep(0.05)
            arguments = await self.shim.run(module_of("arguments"), ["x"])
        self.assertIn(b"x", arguments.stdout)

    async def test_a_run_whose_output_is_refused(self) -> None:
        """Its task is gone, so that nothing holds its module."""
        with mock.patch.object(self.shim, "output", side_effect=NO_MEMORY), self.assertRaises(feulgama.NoMemoryError):
            await self.shim.run(EXIT_7)
        self.assertEqual(await self.shim.gc(), (feulgama.digest_of(EXIT_7),))

    async def test_a_wait_that_is_cancelled(self) -> None:
        task = await self.endless()
        for _ in range(2 * WAITERS):
            waiting = asyncio.create_task(self.shim.wait(task))
            await asyncio.sleep(0)
            await asyncio.sleep(0)
            waiting.cancel()
        self.assertEqual((await self.shim.state(task)).status, Status.RUNNING)
        last = asyncio.create_task(self.shim.wait(task))
        self.assertEqual((await self.shim.run(EXIT_7)).exit.code, 7)
        await self.shim.kill(task)
        state = await last
        self.assertTrue(state.exit is not None and state.exit.cause is Cause.KILL)
        self.assertEqual(await self.shim.wait(task), state)

    async def test_a_limit_of_time(self) -> None:
        task = await self.endless()
        with self.assertRaises(feulgama.TimedOutError):
            await self.shim.wait(task, timeout=0.01)
        await self.shim.pause(task)
        self.assertEqual((await self.shim.wait(task, timeout=10)).status, Status.PAUSED)
        with self.assertRaises(feulgama.TimedOutError) as found:
            await self.shim.run(FOREVER_BYTES, timeout=0.05)
        ran = found.exception.ran
        self.assertTrue(ran is not None and ran.exit.cause is Cause.KILL)

    async def test_runs_while_no_caller_is_free(self) -> None:
        """One takes too long, one ends, and one is cancelled. None leaves a task."""
        async with feulgama.AsyncShim(SHIM, waiters=1) as shim:
            foreign = (await shim.create(feulgama.Config(await shim.ensure(FOREVER_BYTES)))).id
            await shim.start(foreign)
            waiting = asyncio.create_task(shim.wait(foreign))
            await asyncio.sleep(SOON)
            with self.assertRaises(feulgama.TimedOutError):
                await asyncio.wait_for(shim.run(OTHER_FOREVER, timeout=0.05), 10)
            self.assertEqual((await asyncio.wait_for(shim.run(EXIT_7), 10)).exit.code, 7)
            cancelled = asyncio.create_task(shim.run(OTHER_FOREVER))
            await asyncio.sleep(SOON)
            cancelled.cancel()
            await asyncio.wait({cancelled})
            for work in list(shim._cleaning):
                await asyncio.wait_for(work, 10)
            self.assertEqual(set(await shim.gc()), {feulgama.digest_of(EXIT_7), feulgama.digest_of(OTHER_FOREVER)})
        await asyncio.gather(waiting, return_exceptions=True)

    async def test_a_wait_that_another_sends_before_a_change(self) -> None:
        """What it is told was true before the change, so it is not told whoever waits after that."""
        task = await self.endless()
        await self.shim.pause(task)
        await self.shim.wait(task)
        resumed = asyncio.create_task(self.shim.resume(task))
        await asyncio.sleep(0)
        early = asyncio.get_running_loop().create_future()  # the answer is here, and nobody has been told of it
        self.shim._open[task] = early
        await resumed
        last = asyncio.create_task(self.shim.wait(task))
        await asyncio.sleep(0)
        early.set_result(feulgama.State(task, Status.PAUSED, 0))
        await self.shim.kill(task)
        self.assertEqual((await last).status, Status.STOPPED)

    async def test_a_wait_after_a_request_that_is_cancelled(self) -> None:
        """It is sent once that is answered, so a task that was started is not said to be created."""
        task = (await self.shim.create(feulgama.Config(await self.shim.ensure(EXIT_7)))).id
        loop, control = asyncio.get_running_loop(), self.shim._running.control
        loop.remove_reader(control._ends.replies)
        starting = asyncio.create_task(self.shim.start(task))
        await asyncio.sleep(0)
        starting.cancel()
        waiting = asyncio.create_task(self.shim.wait(task))
        for _ in range(5):
            await asyncio.sleep(0)
        sent = sum(len(waiter.pending) for waiter in self.shim._running.waiters)
        loop.add_reader(control._ends.replies, control._read)
        self.assertEqual((sent, (await waiting).status), (0, Status.STOPPED))

    async def test_a_wait_after_a_glance_that_is_cancelled(self) -> None:
        """The same for a wait that asks for the state, since no caller is free for it."""
        async with feulgama.AsyncShim(SHIM, waiters=1) as shim:
            digest = await shim.ensure(FOREVER_BYTES)
            tasks = [(await shim.create(feulgama.Config(digest))).id for _ in range(2)]
            for task in tasks:
                await shim.start(task)
            loop, control = asyncio.get_running_loop(), shim._running.control
            loop.remove_reader(control._ends.replies)
            waiting = [asyncio.create_task(shim.wait(task)) for task in tasks]
            with mock.patch("feulgama.aio.pause", lambda _begin: 0.0):
                while not control.pending:
                    await asyncio.sleep(0)
            for wait in waiting:
                wait.cancel()
            await asyncio.gather(*waiting, return_exceptions=True)
            asked = [one.future.done() for one in control.pending]
            loop.add_reader(control._ends.replies, control._read)
            self.assertEqual(asked, [False])

    @pytest.mark.program
    async def test_reasons(self) -> None:
        with self.assertRaisesRegex(feulgama.NotFoundError, "nobody"):
            await self.shim.wait("nobody")

    async def test_more_waits_than_callers(self) -> None:
        async with feulgama.AsyncShim(SHIM, waiters=2) as shim:
            digest = await shim.ensure(FOREVER_BYTES)
            tasks = [(await shim.create(feulgama.Config(digest))).id for _ in range(5)]
            for task in tasks:
                await shim.start(task)
            waiting = [asyncio.create_task(shim.wait(task)) for task in tasks]
            await asyncio.sleep(SOON)
            waiting[2].cancel()
            for task in tasks:
                await shim.kill(task)
            found = await asyncio.gather(*waiting, return_exceptions=True)
            ends: list[type[object]] = [feulgama.State] * 5
            ends[2:3] = [asyncio.CancelledError]
            self.assertEqual([type(one) for one in found], ends)

    @pytest.mark.program
    @pytest.mark.clock
    async def test_leaving_is_soon(self) -> None:
        """With as many waits as there are callers."""
        for _ in range(5):
            async with feulgama.AsyncShim(SHIM) as shim:
                digest = await shim.ensure(FOREVER_BYTES)
                tasks = [(await shim.create(feulgama.Config(digest))).id for _ in range(WAITERS)]
                await asyncio.gather(*map(shim.start, tasks))
                waiting = [asyncio.create_task(shim.wait(task)) for task in tasks]
                await asyncio.sleep(SOON)
                begin = time.monotonic()
            self.assertLess(time.monotonic() - begin, 1)
            found = await asyncio.gather(*waiting, return_exceptions=True)
            self.assertEqual({type(error) for error in found}, {feulgama.ClosedError})


def started_by(mark: str) -> list[int]:
    """The processes whose environment has this mark, which children inherit, but for those that have ended."""
    found = []
    for folder in Path("/proc").glob("[0-9]*"):
        try:
            if f"{MARK}={mark}\0".encode() in (folder / "environ").read_bytes():
                found.append(int(folder.name))
        except OSError:
            pass
    return found


@pytest.mark.program
class KilledClient(unittest.TestCase):
    """A client is killed at random moments, from its start on: no process is left of what it has started."""

    @pytest.mark.clock
    def test_nothing_is_left(self) -> None:
        random.seed(5)
        with_shim = 0
        for number in range(KILLS):
            mark, how = f"{os.getpid()}.{number}", ("threads", "asyncio")[number % 2]
            with subprocess.Popen([sys.executable, CLIENT_TO_KILL, SHIM, how], env={**os.environ, MARK: mark}, cwd=CLIENT,
                                  stderr=subprocess.DEVNULL) as client:
                until = time.monotonic() + 60
                while len(started_by(mark)) < 2 and time.monotonic() < until and number % 5:
                    time.sleep(0.01)
                time.sleep(random.uniform(0, 0.5))
                with_shim += len(started_by(mark)) > 1
                client.kill()
            until = time.monotonic() + 1
            while started_by(mark) and time.monotonic() < until:
                time.sleep(0.02)
            self.assertEqual(started_by(mark), [], how)
        self.assertGreaterEqual(with_shim, KILLS * 4 // 5)
