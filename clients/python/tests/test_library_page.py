"""The examples of docs/library.md are run, and there is one for every call."""
from __future__ import annotations

import contextlib
import doctest
import inspect
import os
import re
import unittest
from unittest import mock

import feulgama
from feulgama import requests, said
from feulgama.calls import Calls
from feulgama.operation import Operation
from tests.support import CLIENT, FOREVER_BYTES, IS_REFERENCE, SHIM

PAGE = CLIENT / "docs/library.md"
BLOCK = re.compile(r"```python\n(.*?)```", re.DOTALL)


def examples() -> str:
    return "\n".join(BLOCK.findall(PAGE.read_text()))


class Page(unittest.TestCase):
    def test_examples(self) -> None:
        """All blocks of the page are one session; `endless` is a module that runs for ever."""
        told: list[str] = []
        test = doctest.DocTestParser().get_doctest(examples(), {"endless": FOREVER_BYTES}, PAGE.name, str(PAGE), 0)
        runner = doctest.DocTestRunner()
        for module in () if IS_REFERENCE else (said, feulgama.aio):  # reasons come, however slow the machine is
            self.enterContext(mock.patch.object(module, "PATIENCE", 60))
        with mock.patch.dict(os.environ, FEULGAMA_SHIM=SHIM), contextlib.chdir(CLIENT):
            runner.run(test, out=told.append)
        self.assertEqual("".join(told), "")
        self.assertGreater(runner.tries, 50)

    def test_one_for_every_call(self) -> None:
        text = examples()
        for name in Calls.__dict__.keys() | {"wait", "run", "ensure", "call", "call_all", "another", "kill_shim", "close"}:
            if not name.startswith("_") and name != "new_id":
                self.assertRegex(text, rf"\b(shim|third|before|other)\.{name}\(", name)


class Table(unittest.TestCase):
    """The requests are written once."""

    def test_each_request_is_a_method(self) -> None:
        table = {name for name, found in vars(requests).items() if isinstance(found, Operation)}
        self.assertEqual(table, {name for name, found in vars(Calls).items() if isinstance(found, Operation)} | {"wait"})
        self.assertEqual(len(table), 21)

    def test_methods_tell_their_arguments(self) -> None:
        """As `help` and editors show them."""
        with feulgama.Shim(SHIM) as shim:
            self.assertEqual(str(inspect.signature(shim.peek)),
                             "(task: 'str', address: 'int', length: 'int') -> 'Request[bytes]'")
            self.assertEqual((shim.peek.__name__, shim.peek.__doc__), ("peek", "Bytes of a task's memory."))

    def test_the_keyword_that_was_id(self) -> None:
        line = requests.state("a").line
        with self.assertWarnsRegex(DeprecationWarning, "`id` is called `task`"):
            self.assertEqual(requests.state(id="a").line, line)  # type: ignore[call-arg]
        with self.assertWarnsRegex(DeprecationWarning, "`id` is called `lease`"):
            self.assertEqual(requests.lease_delete(id="l").line, b'{"op":"lease_delete","id":"l"}\n')  # type: ignore[call-arg]
        with self.assertRaises(TypeError):
            requests.put(id="a")  # type: ignore[call-arg]
