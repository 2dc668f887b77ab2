"""The library over one shim: requests, results, refusals."""
from __future__ import annotations

import gc
import os
import stat
import tempfile
import threading
import time
import unittest
from pathlib import Path
from typing import Any
from unittest import mock

import pytest

import feulgama
from feulgama import requests
from feulgama.model import Cause, Exit, Status
from tests.support import EXIT_7, FOREVER_BYTES, SHIM, module_of

BROKEN = Path(__file__).with_name("broken_shim.py")


class Requests(unittest.TestCase):
    def setUp(self) -> None:
        self.shim = self.enterContext(feulgama.Shim(SHIM))

    def paused(self) -> str:
        """A task that is paused before its first turn."""
        id = self.shim.create(feulgama.Config(self.shim.ensure(EXIT_7))).id
        self.shim.break_(id, 1, 0)
        self.assertEqual(self.shim.start(id).status, Status.PAUSED)
        return id

    def test_run(self) -> None:
        ran = self.shim.run(EXIT_7)
        self.assertEqual(ran, (Exit(Cause.EXIT, 7), b"", b""))
        self.assertEqual(self.shim.gc(), ())

    def test_run_with_arguments(self) -> None:
        exit_, stdout, stderr = self.shim.run(module_of("arguments"), ["a", "b c"], {"NAME": "value"}, 1 << 21)
        self.assertIn(b"b c", stdout)
        self.assertIn(b"NAME=value", stdout)
        self.assertEqual((exit_.cause in (Cause.RETURN, Cause.EXIT), stderr), (True, b""))

    def test_run_keeps_what_was_stored(self) -> None:
        self.shim.put(EXIT_7)
        self.shim.run(EXIT_7)
        self.assertEqual(self.shim.gc(), (feulgama.digest_of(EXIT_7),))

    def test_task(self) -> None:
        id = self.paused()
        state = self.shim.step(id)
        self.assertEqual((state.status, state.turns, state.exit), (Status.PAUSED, 1, None))
        frame, = self.shim.inspect(id).frames
        self.assertEqual((frame.func, frame.next, frame.operands[0].number, str(frame.operands[0])), (1, 1, 7, "i32:7"))
        self.assertEqual(self.shim.peek(id, 0, 0), b"")
        self.shim.unbreak(id, 1, 0)
        self.assertEqual(self.shim.resume(id).status, Status.RUNNING)
        self.assertEqual(self.shim.wait(id).exit, Exit(Cause.EXIT, 7))
        self.assertEqual(self.shim.output(id), b"")
        self.assertEqual(self.shim.delete(id).turns, 2)

    def test_kill(self) -> None:
        id = self.paused()
        self.assertEqual(self.shim.kill(id, feulgama.Signal.TERM).status, Status.STOPPED)
        self.assertEqual(self.shim.state(id).exit, Exit(Cause.KILL, 143, None, 15))

    def test_leases(self) -> None:
        digest, lease = self.shim.ensure(EXIT_7), self.shim.lease_create()
        self.shim.lease_add(lease, digest)
        self.assertEqual(self.shim.gc(), ())
        with self.assertRaises(feulgama.InUseError):
            self.shim.remove(digest)
        self.shim.lease_delete(lease)
        self.shim.remove(digest)

    def test_many(self) -> None:
        id = self.paused()
        answers = self.shim.call_all([requests.state(id), requests.state("none"), requests.state(id)])
        self.assertEqual([type(answer) for answer in answers], [feulgama.State, feulgama.NotFoundError, feulgama.State])
        self.assertEqual(self.shim.call_all([]), [])

    def test_longest_lines(self) -> None:
        data = os.urandom(262_144)
        self.assertEqual(self.shim.put(data).size, 262_144)
        with self.assertRaises(feulgama.LimitError):
            self.shim.put(data + b"a")
        with self.assertRaises(feulgama.BadRequestError):
            self.shim.put(bytes(1_000_000))
        self.assertEqual(len(self.shim.gc()), 1)


class Refusals(unittest.TestCase):
    def setUp(self) -> None:
        self.shim = self.enterContext(feulgama.Shim(SHIM))

    def refused(self, kind: type[feulgama.RefusalError], request: requests.Request[Any]) -> feulgama.RefusalError:
        with self.assertRaises(kind) as found:
            self.shim.call(request)
        self.assertEqual((found.exception.number, found.exception.name), (kind.NUMBER, kind.__name__.removesuffix("Error")))
        return found.exception

    def test_each(self) -> None:
        digest = self.shim.ensure(EXIT_7)
        id = self.shim.create(feulgama.Config(digest)).id
        self.refused(feulgama.BadRequestError, requests.step(id, -1))
        self.refused(feulgama.BadIdError, requests.start("-"))
        self.refused(feulgama.ExistsError, requests.put(EXIT_7))
        self.refused(feulgama.NotFoundError, requests.start("none"))
        self.refused(feulgama.NoContentError, requests.remove("sha256:" + "0" * 64))
        self.refused(feulgama.InUseError, requests.remove(digest))
        self.refused(feulgama.BadConfigError, requests.create("{}", "b"))
        self.refused(feulgama.WrongStatusError, requests.step(id))
        self.refused(feulgama.OutOfRangeError, requests.peek(id, 0, 257))
        for text, kind in ((b"abc", feulgama.BadModuleError), (b"\0asm\1\0\0\0", feulgama.NoEntryError)):
            self.refused(kind, requests.create(feulgama.Config(self.shim.ensure(text)), "b"))
        for number in range(63):
            self.shim.create(feulgama.Config(digest))
        self.refused(feulgama.TooManyError, requests.create(feulgama.Config(digest), "b"))

    @pytest.mark.program
    def test_of_texts(self) -> None:
        with self.assertRaises(feulgama.BadTextError) as found:
            self.shim.put_text("(module (type (func)) (func (type 0) i32.cons 1))")
        self.assertEqual((found.exception.line, found.exception.column), (1, 38))
        digest = self.shim.put_text('(module (type (func)) (func (type 0) nop drop) (export "_start" (func 0)))').digest
        with self.assertRaises(feulgama.InvalidError) as fault:
            self.shim.create(feulgama.Config(digest))
        self.assertEqual((fault.exception.func, fault.exception.place), (0, 1))

    def test_numbers_are_those_of_the_page(self) -> None:
        self.assertEqual(sorted(feulgama.REFUSALS), [*range(1, 20), 21, 22, 23])


@pytest.mark.program
class Serve(unittest.TestCase):
    """What `serve` has beside its board."""

    def test_the_end_of_the_journal(self) -> None:
        """16,384 requests are answered, then each is refused, and another shim begins anew."""
        with feulgama.Shim(SHIM) as shim:
            self.assertEqual(shim.left, 16_384)
            shim.put(EXIT_7)
            answers = shim.call_all([requests.state("none")] * 16_383)
            self.assertEqual({type(answer) for answer in answers}, {feulgama.NotFoundError})
            self.assertEqual(shim.left, 0)
            for _ in range(2):
                with self.assertRaises(feulgama.JournalFullError) as found:
                    shim.put(EXIT_7)
            self.assertEqual(found.exception.number, 15)
            self.assertIn("start another", str(found.exception))
            with shim.another() as other:
                self.assertEqual((other.left, other.run(EXIT_7).exit.code), (16_384, 7))

    def test_workers(self) -> None:
        """Each worker is a thread of the shim's process."""
        threads = []
        for workers in (1, 16):
            with feulgama.Shim(SHIM, workers=workers) as shim, shim.another() as other:
                self.assertEqual({shim.run(EXIT_7).exit.code, other.run(EXIT_7).exit.code}, {7})
                threads.append([len(os.listdir(f"/proc/{one.pid}/task")) for one in (shim, other)])
        self.assertEqual(threads[1], [found + 15 for found in threads[0]])

    def test_a_number_of_workers_that_there_is_not(self) -> None:
        for workers in (0, 17):
            with self.assertRaises(feulgama.ShimEndedError) as found, feulgama.Shim(SHIM, workers=workers) as shim:
                shim.gc()
            self.assertEqual(found.exception.status, 2)
            self.assertIn("--workers", found.exception.said)


@pytest.mark.clock
class Broken(unittest.TestCase):
    """A program that does not do what a shim does."""

    def asked(self, how: str) -> BaseException:
        with mock.patch.dict(os.environ, BROKEN=how), self.assertRaises(feulgama.FeulgamaError) as found:
            begin = time.monotonic()
            with feulgama.Shim(BROKEN) as shim:
                shim.gc()
        self.assertLess(time.monotonic() - begin, 2)
        return found.exception

    def test_ends(self) -> None:
        error = self.asked("ends")
        self.assertIsInstance(error, feulgama.ShimEndedError)
        self.assertIn("status 1: wasm-shim: out of memory", str(error))

    def test_no_reply(self) -> None:
        for how in ("half", "closes"):
            self.assertIsInstance(self.asked(how), feulgama.ShimEndedError, how)
        for how in ("words", "list", "bare", "keys", "two"):
            self.assertIsInstance(self.asked(how), feulgama.BadReplyError, how)

    def test_number_that_is_not_known(self) -> None:
        error = self.asked("new")
        self.assertIs(type(error), feulgama.RefusalError)
        self.assertEqual(getattr(error, "number"), 99)


class Absent(unittest.TestCase):
    """A shim that is not there, or no more."""

    def test_a_start_that_is_broken_off(self) -> None:
        """By Ctrl-C: no pipe is left."""
        before = os.listdir("/proc/self/fd")
        with mock.patch("subprocess.Popen", side_effect=KeyboardInterrupt), self.assertRaises(KeyboardInterrupt):
            feulgama.Shim(SHIM)
        self.assertEqual(os.listdir("/proc/self/fd"), before)

    def test_one_that_is_given_up(self) -> None:
        """Nobody closes it, and it ends nevertheless. No pipe is left, whether or not a task was waited for."""
        gc.collect()
        before = os.listdir("/proc/self/fd")
        for waits in (False, True):
            shim = feulgama.Shim(SHIM)
            task = shim.create(feulgama.Config(shim.ensure(FOREVER_BYTES))).id
            shim.start(task)
            if waits:
                with self.assertRaises(feulgama.TimedOutError):
                    shim.wait(task, timeout=0.05)
            process, threads = shim._pipe._process, [shim._pipe._listener, shim._pipe._waits._reader]
            del shim
            gc.collect()
            self.assertEqual(process.wait(5), 0)
            for thread in threads:
                if thread is not None:
                    thread.join(5)
            self.assertEqual(os.listdir("/proc/self/fd"), before)

    def test_not_there(self) -> None:
        with self.assertRaises(feulgama.NoShimError):
            feulgama.Shim("/nowhere")

    def test_after_the_end(self) -> None:
        shim = feulgama.Shim(SHIM)
        shim.close()
        with self.assertRaises(feulgama.ShimEndedError):
            shim.gc()

    def test_a_request_while_it_is_closed(self) -> None:
        """Its line goes into no file that has got the number of the pipe meanwhile."""
        shim, found, file = feulgama.Shim(SHIM), list[BaseException](), self.enterContext(tempfile.TemporaryFile())
        wait, lines = shim._pipe._process.wait, shim._pipe._in

        def ask() -> None:
            try:
                shim.gc()
            except feulgama.ShimEndedError as error:
                found.append(error)
        thread = threading.Thread(target=ask, daemon=True)

        def late(timeout: float | None = None) -> int:
            if thread.ident is None:
                os.dup2(file.fileno(), lines)
                thread.start()
                thread.join(0.3)
            return wait(timeout)

        with mock.patch.object(shim._pipe._process, "wait", late):
            shim.close()
        thread.join(10)
        os.close(lines)
        self.assertEqual((os.fstat(file.fileno()).st_size, len(found)), (0, 1))

    def test_a_wait_while_it_is_closed(self) -> None:
        """The pipe stays open until its line is written."""
        shim, write, are_pipes = feulgama.Shim(SHIM), os.write, list[bool]()
        task = shim.create(feulgama.Config(shim.ensure(FOREVER_BYTES))).id
        thread = threading.Thread(target=shim.close, daemon=True)

        def late(lines: int, data: bytes) -> int:
            thread.start()
            thread.join(0.5)
            are_pipes.append(stat.S_ISFIFO(os.fstat(lines).st_mode))
            return write(lines, data)

        with mock.patch("os.write", late), self.assertRaises(feulgama.ShimEndedError):
            shim.wait(task)
        thread.join(10)
        self.assertEqual(are_pipes, [True])

    def test_closing_while_a_request_is_not_answered(self) -> None:
        """It is broken off."""
        shim, found = feulgama.Shim(SHIM), list[BaseException]()
        task = shim.create(feulgama.Config(shim.ensure(FOREVER_BYTES))).id
        shim.start(task)

        def ask() -> None:
            try:
                shim.call(requests.wait(task))
            except feulgama.ShimEndedError as error:
                found.append(error)
        thread = threading.Thread(target=ask, daemon=True)
        thread.start()
        while not shim._pipe._unanswered:
            thread.join(0.01)
        shim.close()
        thread.join(10)
        self.assertEqual(len(found), 1)
        with self.assertRaises(feulgama.ShimEndedError):
            shim.gc()
