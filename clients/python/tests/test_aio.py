"""The library under asyncio, and shims that are killed."""
from __future__ import annotations

import asyncio
import os
import random
import signal
import threading
import time
import unittest
from collections.abc import Coroutine
from pathlib import Path
from typing import Any
from unittest import mock

import pytest

import feulgama
from feulgama.model import Cause, Exit, Status
from tests.support import EXIT_7, FOREVER_BYTES, IS_REFERENCE, SHIM, machine_of, module_of

BROKEN = Path(__file__).with_name("broken_shim.py")
REQUESTS = 640 if IS_REFERENCE else 10_000
KILLS = 5 if IS_REFERENCE else 50


class Pipelined(unittest.IsolatedAsyncioTestCase):
    async def asyncSetUp(self) -> None:
        asyncio.get_running_loop().set_debug(False)
        self.shim = await self.enterAsyncContext(feulgama.AsyncShim(SHIM))

    async def test_run(self) -> None:
        ran = await asyncio.gather(*(self.shim.run(EXIT_7) for _ in range(20)))
        self.assertEqual({found.exit.code for found in ran}, {7})

    async def test_each_reply_is_its_own(self) -> None:
        """64 tasks, and many requests at once: each reply names the task that was asked for, or the fault."""
        digest = await self.shim.ensure(EXIT_7)
        ids = [f"t{number}" for number in range(64)]
        await asyncio.gather(*(self.shim.create(feulgama.Config(digest), id) for id in ids))
        for id in random.sample(ids, 32):
            await self.shim.break_(id, 1, 0)
            await self.shim.start(id)

        async def asked(number: int) -> None:
            id = ids[number % 64]
            match number % 4:
                case 0 | 1:
                    self.assertEqual((await self.shim.state(id)).id, id)
                case 2:
                    self.assertEqual((await self.shim.inspect(id)).id, id)
                case 3:
                    with self.assertRaises(feulgama.NotFoundError):
                        await self.shim.state("no-" + id)

        await asyncio.gather(*map(asked, range(REQUESTS)))

    async def test_a_coroutine_that_is_cancelled(self) -> None:
        waiting = asyncio.create_task(self.shim.put(os.urandom(200_000)))
        await asyncio.sleep(0)
        waiting.cancel()
        self.assertEqual(len(await self.shim.gc()), 1)


class Running(unittest.IsolatedAsyncioTestCase):
    """64 tasks at once, run by two workers, and 10,000 requests in all."""

    async def asyncSetUp(self) -> None:
        asyncio.get_running_loop().set_debug(False)
        random.seed(4)
        self.shim = await self.enterAsyncContext(feulgama.AsyncShim(SHIM, workers=2))
        self.writes = module_of("arguments")
        self.written = [self.what_is_written(f"task-{number}") for number in range(32)]

    def what_is_written(self, name: str) -> tuple[feulgama.Config, Any]:
        """Some arguments, and what the second reading makes of them."""
        args = (name, *(random.randbytes(random.randrange(20)).hex() for _ in range(3)))
        machine = machine_of(self.writes)
        machine.args, machine.env = [arg.encode() for arg in args], [f"ID={name}".encode()]
        machine.run(10**6)
        return feulgama.Config(feulgama.digest_of(self.writes), args, {"ID": name}), machine

    async def test_each_reply_is_its_own(self) -> None:
        begin = self.shim.left
        forever, _ = await asyncio.gather(self.shim.ensure(FOREVER_BYTES), self.shim.ensure(self.writes))
        share, more = divmod(REQUESTS - 2, 64)
        asked = [share + (number < more) for number in range(64)]
        await asyncio.gather(*(self.keep_pausing(f"t{number}", forever, asked[number]) for number in range(8)),
                             *(self.keep_writing(f"t{number}", asked[number]) for number in range(8, 64)))
        self.assertEqual(begin - self.shim.left, REQUESTS)

    async def keep_pausing(self, id: str, digest: str, count: int) -> None:
        """Pauses a task that runs for ever, and looks at it, with this many requests in all."""
        self.assertEqual((await self.shim.create(feulgama.Config(digest), id)).id, id)
        self.assertEqual((await self.shim.start(id)), (feulgama.TaskStatus(id, Status.RUNNING)))
        turns, rounds = 0, (count - 4) // 4
        for _ in range(rounds):
            self.assertIn((await self.shim.pause(id)).status, (Status.PAUSED, Status.PAUSING))
            state = await self.shim.wait(id)
            shown = await self.shim.inspect(id)
            self.assertEqual((state.id, state.status, shown.id, shown.turns), (id, Status.PAUSED, id, state.turns))
            frame, = shown.frames
            self.assertEqual((frame.next, frame.locals[0].number), (state.turns % 6, (state.turns + 1) // 6))
            self.assertGreaterEqual(state.turns, turns)
            turns = state.turns
            self.assertEqual((await self.shim.resume(id)).status, Status.RUNNING)
        await self.pad(id, count - 4 - 4 * rounds)
        await self.shim.kill(id)
        ended = await self.shim.wait(id)
        self.assertEqual((ended.id, ended.exit), (id, Exit(Cause.KILL, 137, None, 9)))
        self.assertGreaterEqual(ended.turns, turns)

    async def keep_writing(self, id: str, count: int) -> None:
        """Runs one task after the other that writes its arguments, with this many requests in all."""
        rounds = count // 6
        for _ in range(rounds):
            config, machine = random.choice(self.written)
            await self.shim.create(config, id)
            _, state = await asyncio.gather(self.shim.start(id), self.shim.wait(id))
            out, err = await asyncio.gather(self.shim.output(id), self.shim.output(id, feulgama.Stream.STDERR))
            self.assertEqual((out, err), (bytes(machine.streams[1]), bytes(machine.streams[2])))
            self.assertIn(config.args[0].encode(), out)
            self.assertEqual((state.id, state.turns), (id, machine.turns))
            self.assertEqual(await self.shim.delete(id), state)
        await self.pad(id, count - 6 * rounds)

    async def pad(self, id: str, count: int) -> None:
        """Asks for as many tasks that are not there."""
        for _ in range(count):
            with self.assertRaises(feulgama.NotFoundError):
                await self.shim.state("no-" + id)


class Broken(unittest.IsolatedAsyncioTestCase):
    @pytest.mark.clock
    async def test_no_reply(self) -> None:
        kinds = {"ends": feulgama.ShimEndedError, "half": feulgama.ShimEndedError, "closes": feulgama.ShimEndedError,
                 "words": feulgama.BadReplyError, "list": feulgama.BadReplyError, "keys": feulgama.BadReplyError}
        for how, kind in kinds.items():
            with mock.patch.dict(os.environ, BROKEN=how), self.assertRaises(kind):
                async with asyncio.timeout(2), feulgama.AsyncShim(BROKEN) as shim:
                    await asyncio.gather(shim.gc(), shim.gc())


class Killed(unittest.IsolatedAsyncioTestCase):
    """A shim whose two workers are busy is killed at a random moment: what is asked ends with an exception, within a
    second."""

    def setUp(self) -> None:
        random.seed(1)

    @pytest.mark.clock
    def test_one_after_another(self) -> None:
        slowest = 0.0
        for number in range(KILLS):
            with feulgama.Shim(SHIM, workers=2) as shim:
                digest, busy = shim.ensure(EXIT_7), self.started(shim)
                moment: list[float] = []

                def kill(pid: int = shim.pid, moment: list[float] = moment) -> None:
                    moment.append(time.monotonic())
                    os.kill(pid, signal.SIGKILL)

                timer = threading.Timer(random.uniform(0, 0.05), kill)
                timer.start()
                with self.assertRaises(feulgama.ShimEndedError) as found:
                    self.ask_on(shim, digest, busy, number)
                slowest = max(slowest, time.monotonic() - moment[0])
                self.assertEqual(found.exception.status, -signal.SIGKILL)
                timer.join()
        self.assertLess(slowest, 1)

    def started(self, shim: feulgama.Shim) -> str:
        """One of three tasks that run for ever, so that each worker has one."""
        digest = shim.ensure(FOREVER_BYTES)
        ids = [shim.create(feulgama.Config(digest)).id for _ in range(3)]
        for id in ids:
            shim.start(id)
        return ids[1]

    def ask_on(self, shim: feulgama.Shim, digest: str, busy: str, number: int) -> None:
        """Asks until the shim ends, with short lines, with long ones, or with one that is not answered."""
        while True:
            match number % 3:
                case 0:
                    shim.put(os.urandom(250_000))
                    shim.gc()
                case 1:
                    shim.delete(self.killed(shim, digest))
                case 2:
                    shim.wait(busy)

    def killed(self, shim: feulgama.Shim, digest: str) -> str:
        id = shim.create(feulgama.Config(digest)).id
        shim.kill(id)
        return id

    @pytest.mark.clock
    def test_while_a_task_runs_for_ever(self) -> None:
        with feulgama.Shim(SHIM) as shim:
            id = self.started(shim)
            threading.Timer(0.2, shim.kill_shim).start()
            begin = time.monotonic()
            with self.assertRaises(feulgama.ShimEndedError):
                shim.wait(id)
            self.assertLess(time.monotonic() - begin, 1.2)

    @pytest.mark.clock
    async def test_many_at_once(self) -> None:
        asyncio.get_running_loop().set_debug(False)
        for number in range(KILLS):
            async with asyncio.timeout(5), feulgama.AsyncShim(SHIM, workers=2) as shim:
                digest = await shim.ensure(FOREVER_BYTES)
                for id in "abc":
                    await shim.create(feulgama.Config(digest), id)
                    await shim.start(id)
                moment: list[float] = []

                def kill(pid: int = shim.pid, moment: list[float] = moment) -> None:
                    moment.append(time.monotonic())
                    os.kill(pid, signal.SIGKILL)

                asyncio.get_running_loop().call_later(random.uniform(0, 0.05), kill)
                asked: list[Coroutine[Any, Any, object]] = [self.states(shim) for _ in range(20)]
                if number % 2:
                    asked.append(shim.wait("b"))
                found = await asyncio.gather(*asked, return_exceptions=True)
                self.assertLess(time.monotonic() - moment[0], 1)
                self.assertEqual({type(error) for error in found}, {feulgama.ShimEndedError})

    async def states(self, shim: feulgama.AsyncShim) -> None:
        while True:
            await shim.gc()
