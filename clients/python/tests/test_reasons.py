"""Reasons of refusals, which a shim writes to standard error after its replies; and the names of exceptions."""
from __future__ import annotations

import asyncio
import os
import threading
import time
import unittest
from unittest import mock

import pytest

import feulgama
from feulgama import errors, requests, said
from feulgama.said import Line, Said
from tests.support import REFERENCE, SHIM

LONG = "x" * 1000


def line(number: int, caller: str = "") -> Line:
    return Line(caller, number)


class Lines(unittest.TestCase):
    """The lines of standard error."""

    def test_reasons_and_all_else(self) -> None:
        found = Said()
        found.feed(b"a word\nwhy: line 2, 4 NotFound: state: there is no t")
        self.assertFalse(found.is_known(line(2)))
        found.feed(b'ask "a"\nwhy: line 5, 1 BadRequest: invalid JSON at line 1 column 1\nlast')
        self.assertEqual((found.why(line(2)), found.why(line(5)), found.why(line(3))),
                         ('there is no task "a"', "invalid JSON at line 1 column 1", None))
        self.assertEqual(found.other(), "a word\nlast")

    def test_each_caller_counts_its_own_lines(self) -> None:
        found = Said()
        found.feed(b"why: /dev/fd/5 line 2, 4 NotFound: state: one\n"
                   b"why: b line 2, 4 NotFound: wait: b line 3, 5 Odd: two\n")
        self.assertEqual((found.why(line(2, "/dev/fd/5")), found.why(line(2, "b"))), ("one", "b line 3, 5 Odd: two"))
        self.assertEqual((found.is_known(line(2)), found.is_known(line(1, "/dev/fd/5"))), (False, True))

    @pytest.mark.clock
    def test_one_that_comes_late(self) -> None:
        found = Said()
        threading.Timer(0.2, found.feed, [b"why: line 1, 5 NoContent: remove: late\n"]).start()
        self.assertEqual(found.why(line(1)), "late")

    @pytest.mark.clock
    def test_a_shim_that_gives_none(self) -> None:
        """It is waited for once, and not at its end."""
        found = Said()
        with mock.patch.object(said, "PATIENCE", 0.2):
            begin = time.monotonic()
            self.assertEqual([found.why(line(number)) for number in range(50)], [None] * 50)
            self.assertLess(time.monotonic() - begin, 1)
            found.feed(b"why: line 60, 5 NoContent: remove: at last\n")
            self.assertEqual((found.why(line(60)), found.is_known(line(61))), ("at last", False))
        found.end()
        self.assertIsNone(found.why(line(61)))


class Given(unittest.TestCase):
    """Over a shim that gives each refusal the same long reason, which is more than a pipe takes."""

    def setUp(self) -> None:
        self.enterContext(mock.patch.dict(os.environ, EXPLAIN=LONG))
        for module in (said, feulgama.aio):  # however slow the machine is
            self.enterContext(mock.patch.object(module, "PATIENCE", 60))

    def test_one(self) -> None:
        with feulgama.Shim(REFERENCE) as shim, self.assertRaises(feulgama.NotFoundError) as found:
            shim.gc()
            shim.state("nobody")
        self.assertEqual(str(found.exception), f"state is refused: 4 NotFound: {LONG}")
        self.assertEqual(found.exception.why, LONG)

    def test_many(self) -> None:
        with feulgama.Shim(REFERENCE) as shim:
            answers = shim.call_all([requests.state(f"n{number}") for number in range(300)])
            self.assertEqual([getattr(answer, "why") for answer in answers], [LONG] * 300)
            for _ in range(200):
                with self.assertRaises(feulgama.NotFoundError):
                    shim.state("nobody")

    def test_not_asked_for(self) -> None:
        with feulgama.Shim(REFERENCE, explain=False) as shim, self.assertRaises(feulgama.NotFoundError) as found:
            shim.state("nobody")
        self.assertIsNone(found.exception.why)

    def test_asyncio(self) -> None:
        async def reasons() -> list[str | None]:
            async with feulgama.AsyncShim(REFERENCE) as shim:
                found = await asyncio.gather(*(shim.state("nobody") for _ in range(300)), return_exceptions=True)
                return [getattr(refused, "why") for refused in found]
        self.assertEqual(asyncio.run(reasons()), [LONG] * 300)

    @pytest.mark.clock
    def test_asyncio_without_reasons(self) -> None:
        async def waited() -> float:
            async with feulgama.AsyncShim(REFERENCE) as shim:
                begin = time.monotonic()
                for _ in range(20):
                    with self.assertRaises(feulgama.NotFoundError):
                        await shim.state("nobody")
                return time.monotonic() - begin
        del os.environ["EXPLAIN"]
        with mock.patch.object(feulgama.aio, "PATIENCE", 0.2):
            self.assertLess(asyncio.run(waited()), 2)


@pytest.mark.program
class OfTheProgram(unittest.TestCase):
    """The program's own words may change: a part of each that says what has to be another."""

    def test_words(self) -> None:
        module = bytes.fromhex("0061736d01000000010401600000" "020501016101620000")
        with feulgama.Shim(SHIM) as shim:
            digest = shim.ensure(b"\0asm\1\0\0\0\1\5\1\x60\1\x7d\0")
            with self.assertRaises(feulgama.BadModuleError) as bad:
                shim.create(feulgama.Config(digest))
            self.assertIn("floats", str(bad.exception))
            with self.assertRaises(feulgama.WrongStatusError) as wrong:
                shim.pause(self.killed(shim))
            self.assertIn("not running", str(wrong.exception))
            with self.assertRaises(feulgama.BadModuleError) as other:
                shim.create(feulgama.Config(shim.ensure(module)))
            self.assertIsNotNone(other.exception.why)

    def killed(self, shim: feulgama.Shim) -> str:
        task = shim.create(feulgama.Config(shim.ensure(bytes.fromhex(
            "0061736d01000000" "010401600000" "03020100" "070a01065f73746172740000" "0a05010300010b")))).id
        shim.kill(task)
        return task

    def test_asyncio(self) -> None:
        async def told() -> str:
            async with feulgama.AsyncShim(SHIM) as shim:
                with self.assertRaises(feulgama.NotFoundError) as found:
                    await shim.state("nobody")
                return str(found.exception)
        self.assertIn("nobody", asyncio.run(told()))


class Names(unittest.TestCase):
    def test_old_names_are_the_same_classes(self) -> None:
        new = [name for name, found in vars(errors).items() if isinstance(found, type) and name.endswith("Error")]
        for name in set(new) - {"FeulgamaError", "InterferenceError", "OldShimError", "TimedOutError", "ClosedError"}:
            self.assertIs(getattr(feulgama, name.removesuffix("Error")), getattr(feulgama, name), name)
            self.assertIs(getattr(errors, name.removesuffix("Error")), getattr(errors, name), name)
        self.assertEqual(len(new), 30)

    def test_each_is_an_error_by_name(self) -> None:
        """Of the whole package."""
        def kinds(kind: type[Exception]) -> set[type[Exception]]:
            return {kind}.union(*map(kinds, kind.__subclasses__()))
        names = [found.__name__ for found in kinds(feulgama.FeulgamaError)]
        self.assertEqual([name for name in names if not name.endswith("Error")], [])


class WrongTypes(unittest.TestCase):
    """What Python would take for another thing."""

    def test_a_text_in_the_place_of_a_list_or_of_bytes(self) -> None:
        with feulgama.Shim(REFERENCE) as shim:
            with self.assertRaisesRegex(TypeError, "a list of words"):
                shim.run(b"", "wc")
            with self.assertRaisesRegex(TypeError, "put_text takes the text"):
                shim.run("(module)")  # type: ignore[arg-type]
            with self.assertRaisesRegex(TypeError, "put_text takes the text"):
                shim.put("(module)")  # type: ignore[arg-type]
            self.assertEqual(shim.left, 16_384)
