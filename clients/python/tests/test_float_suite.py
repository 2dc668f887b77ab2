"""The official test suite's assertions on floats, lowered and run on the shim."""
from __future__ import annotations

import shutil
import unittest

import feulgama
from feulgama.lowering import lower
from tests.float_suite import Call, Script, scripts, with_start
from tests.support import SHIM
from tests.test_lowering import node

# How many calls the scripts have that give a result, and how many that trap.
RESULTS, TRAPS = 13_629, 191
MEMORY = 2**24  # as much as a task may have: some calls grow it


def not_trapping(script: Script) -> bytes:
    """A module that makes all calls of a script that do not trap, in their order."""
    return with_start(script, [call for call in script.calls if call.trap is None])


def trapping() -> list[tuple[Script, Call]]:
    """The calls that trap."""
    return [(script, call) for script in scripts() for call in script.calls if call.trap is not None]


class Suite(unittest.TestCase):
    def test_count(self) -> None:
        calls = [call for script in scripts() for call in script.calls]
        self.assertEqual(sum(call.result is not None for call in calls), RESULTS)
        self.assertEqual(sum(call.trap is not None for call in calls), TRAPS)

    def test_results(self) -> None:
        with feulgama.Shim(SHIM) as shim:
            for script in scripts():
                if shim.run(lower(not_trapping(script)).data, memory_limit=MEMORY).exit.trap is not None:
                    self.fail(f"{script.name}: {self.wrong(shim, script)}")

    def wrong(self, shim: feulgama.Shim, script: Script) -> list[Call]:
        """The calls that give another result, if each of them is made alone."""
        calls = [call for call in script.calls if call.trap is None]
        modules = [(call, lower(with_start(script, [call])).data) for call in calls]
        return [call for call, data in modules if shim.run(data, memory_limit=MEMORY).exit.trap is not None]

    def test_traps(self) -> None:
        """A truncation traps as `unreachable`, all else as the standard names it."""
        with feulgama.Shim(SHIM) as shim:
            for script, call in trapping():
                ran = shim.run(lower(with_start(script, [call])).data, memory_limit=MEMORY)
                self.assertEqual(ran.exit.trap, "unreachable" if "trunc" in call.name else call.trap, call)

    @unittest.skipIf(shutil.which("node") is None, "needs node")
    def test_in_node(self) -> None:
        """The calls as they are, which shows that they are made as the suite means them; and that a wrong result is found."""
        modules = [not_trapping(script) for script in scripts()]
        self.assertEqual({end for _, end in node(modules)}, {"end"})
        script = next(one for one in scripts() if one.name == "f64")
        add = next(call for call in script.calls if call.name == "add" and call.result == "0")
        other = Call(add.name, add.operands, "1")
        self.assertEqual([end for _, end in node([with_start(script, [add]), with_start(script, [other])])], ["end", "trap"])
