"""The debug adapter, as an editor speaks to it."""
from __future__ import annotations

import base64
import io
import json
import subprocess
import tempfile
import threading
import time
import unittest
from typing import Any
from unittest import mock

import pytest

import feulgama
from feulgama.dap.adapter import read_all
from feulgama.dap.inbox import Inbox
from feulgama.dap.session import Session
from feulgama.dap.wire import BadMessageError, Writer, read_message
from feulgama.debug import dwarf
from feulgama.debug.timeline import Why
from feulgama.debug.track import TooFarError
from feulgama.opening import open_debugger
from tests.support import CLIENT, EXIT_7, FOREVER, FOREVER_BYTES, SHIM, TRAPPING_BYTES

Body = dict[str, Any]
FOLDER = CLIENT / "examples"
SOURCE = {"path": str(FOLDER / "words.c")}


class Editor:
    """An editor: sends requests, and keeps the events that come before their responses."""

    def __init__(self) -> None:
        self.process = subprocess.Popen([CLIENT / "bin/feulgama", "--shim", SHIM, "dap"],
                                        stdin=subprocess.PIPE, stdout=subprocess.PIPE)
        self.events: list[Body] = []
        self.count = 0
        self.timer = threading.Timer(600, self.process.kill)
        self.timer.start()

    def send(self, command: str, **arguments: Any) -> None:
        self.count += 1
        data = json.dumps({"seq": self.count, "type": "request", "command": command, "arguments": arguments}).encode()
        assert self.process.stdin is not None
        self.process.stdin.write(b"Content-Length: %d\r\n\r\n" % len(data) + data)
        self.process.stdin.flush()

    def read(self) -> Body:
        assert self.process.stdout is not None
        message = read_message(self.process.stdout)
        assert message is not None, "the adapter has ended"
        return message

    def ask(self, command: str, **arguments: Any) -> Body:
        """The response to a request."""
        self.send(command, **arguments)
        while True:
            message = self.read()
            if message["type"] == "response":
                assert message["request_seq"] == self.count
                return message
            self.events.append(message)

    def event(self, *names: str) -> Body:
        """The next event with one of these names; what comes before it is passed over."""
        while True:
            message = self.events.pop(0) if self.events else self.read()
            if message["type"] == "event" and message["event"] in names:
                return message

    def move(self, command: str, **arguments: Any) -> tuple[str, int]:
        """Moves; the reason of the stop, and the line of the innermost frame."""
        assert self.ask(command, threadId=1, **arguments)["success"]
        reason = self.event("stopped")["body"]["reason"]
        return reason, self.frames()[0]["line"]

    def frames(self) -> list[Body]:
        found: list[Body] = self.ask("stackTrace", threadId=1)["body"]["stackFrames"]
        return found

    def evaluate(self, text: str, context: str = "watch") -> str:
        return str(self.ask("evaluate", expression=text, frameId=0, context=context)["body"]["result"])

    def close(self) -> None:
        assert self.process.stdin is not None and self.process.stdout is not None
        self.process.stdin.close()
        self.process.wait()
        self.process.stdout.close()
        self.timer.cancel()


class WithEditor(unittest.TestCase):
    def setUp(self) -> None:
        self.editor = Editor()
        self.addCleanup(self.editor.close)
        self.assertTrue(self.editor.ask("initialize", adapterID="feulgama")["body"]["supportsStepBack"])

    def launch(self, **arguments: Any) -> None:
        self.assertTrue(self.editor.ask("launch", **{"program": str(FOLDER / "words.wasm"), **arguments})["success"])
        self.editor.event("initialized")


@unittest.skipUnless(dwarf.IS_THERE, "needs python3-pyelftools")
class Lines(WithEditor):
    """A C program with lines."""

    def stop_at(self, line: int) -> None:
        self.launch()
        answer = self.editor.ask("setBreakpoints", source=SOURCE, breakpoints=[{"line": line}])
        self.assertTrue(answer["body"]["breakpoints"][0]["verified"])
        self.editor.ask("configurationDone")
        self.assertEqual(self.editor.event("stopped")["body"]["reason"], "breakpoint")

    def test_steps_forward_and_back(self) -> None:
        self.stop_at(49)
        turn = self.editor.evaluate("turn")
        self.assertEqual(self.editor.move("next"), ("step", 50))
        self.assertEqual(self.editor.move("next"), ("step", 45))
        self.assertEqual(self.editor.move("stepBack"), ("step", 50))
        self.assertEqual(self.editor.move("stepBack"), ("breakpoint", 49))
        self.assertEqual(self.editor.evaluate("turn"), turn)
        self.assertEqual(self.editor.move("stepIn"), ("step", 35))
        self.assertEqual(self.editor.move("stepOut")[0], "step")
        self.assertEqual(self.editor.move("stepBack", granularity="instruction")[0], "step")
        self.assertEqual(self.editor.move("continue"), ("breakpoint", 49))
        self.assertEqual(self.editor.move("reverseContinue"), ("breakpoint", 49))
        self.assertEqual(self.editor.evaluate("turn"), turn)
        self.assertEqual(self.editor.move("reverseContinue")[0], "entry")

    def test_looks(self) -> None:
        self.stop_at(49)
        scopes = {scope["name"]: scope["variablesReference"]
                  for scope in self.editor.ask("scopes", frameId=0)["body"]["scopes"]}
        shown = {found["name"]: found for name in scopes
                 for found in self.editor.ask("variables", variablesReference=scopes[name])["body"]["variables"]}
        self.assertEqual((shown["local 3"]["value"], shown["local 3"]["type"]), ("17456", "i32"))
        self.assertEqual(shown["memory"]["value"], "65536 bytes")
        self.assertEqual((shown["length"]["value"], shown["length"]["type"]), ("3", "unsigned int"))
        self.assertEqual(shown["found"]["value"], "{words = 0, longest = 0, sum = 0}")
        self.assertEqual((self.editor.evaluate("length"), self.editor.evaluate("&length - local 3")), ("3", "8"))
        data = self.editor.ask("readMemory", memoryReference=shown["local 3"]["memoryReference"], offset=4, count=8)
        self.assertEqual(base64.b64decode(data["body"]["data"]), bytes([3, 4, 0, 0, 3, 0, 0, 0]))
        beyond = self.editor.ask("readMemory", memoryReference="65530", count=16)["body"]
        self.assertEqual((len(base64.b64decode(beyond["data"])), beyond["unreadableBytes"]), (6, 10))
        self.assertEqual(self.editor.evaluate("*(local 3 + 8)"), "i32:3")
        self.assertIn("0x00000400: ", self.editor.evaluate("x/4xw 1024", "repl"))
        self.assertFalse(self.editor.ask("evaluate", expression="nothing", frameId=0)["success"])

    def test_what_is_in_a_variable(self) -> None:
        self.stop_at(49)
        scopes = self.editor.ask("scopes", frameId=0)["body"]["scopes"]
        shown = {found["name"]: found for found in self.children(scopes[0]["variablesReference"])}
        self.assertEqual(shown["length"]["variablesReference"], 0)
        members = self.children(shown["found"]["variablesReference"])
        self.assertEqual([(one["name"], one["value"], one["evaluateName"]) for one in members],
                         [("words", "0", "found.words"), ("longest", "0", "found.longest"), ("sum", "0", "found.sum")])
        self.assertEqual(self.editor.evaluate("found.sum + 1"), "1")
        pointed = self.children(shown["at"]["variablesReference"])
        self.assertEqual([(one["name"], one["value"], one["type"]) for one in pointed], [("*", "32 ' '", "char")])
        info = self.editor.ask("dataBreakpointInfo", variablesReference=shown["found"]["variablesReference"], name="sum")
        self.assertEqual(info["body"]["dataId"], "0x438 4 found.sum")
        items = self.editor.ask("evaluate", expression="line", frameId=0)["body"]["variablesReference"]
        self.assertEqual([one["name"] for one in self.children(items)], [f"[{index}]" for index in range(16)])

    def test_what_is_in_an_expression_can_be_watched(self) -> None:
        self.stop_at(49)
        for expression, name in (("found", "found.sum"), ("*&found", "(*&found).sum")):
            opened = self.editor.ask("evaluate", expression=expression, frameId=0)["body"]["variablesReference"]
            self.assertEqual(self.children(opened)[2]["evaluateName"], name)
            self.assertEqual(self.editor.evaluate(name), "0")
            info = self.editor.ask("dataBreakpointInfo", variablesReference=opened, name="sum")
            self.assertEqual(info["body"]["dataId"], f"0x438 4 {name}")

    def children(self, reference: int) -> list[Body]:
        found: list[Body] = self.editor.ask("variables", variablesReference=reference)["body"]["variables"]
        return found

    def test_conditions_counts_and_logs(self) -> None:
        """`end_word` is called from line 49 with 3 5 5 3 5 4 3 4, and from line 53 with 3 letters."""
        self.launch()
        answer = self.editor.ask("setBreakpoints", source=SOURCE, breakpoints=[
            {"line": 49, "condition": "length == 5"}, {"line": 53, "logMessage": "the last has {length}"},
            {"line": 49, "hitCondition": "odd"}])["body"]["breakpoints"]
        self.assertEqual([found["verified"] for found in answer], [True, True, False])
        self.editor.ask("configurationDone")
        self.editor.event("stopped")
        self.assertEqual((self.editor.evaluate("length"), self.editor.evaluate("found.words")), ("5", "1"))
        self.editor.ask("setBreakpoints", source=SOURCE, breakpoints=[
            {"line": 49, "hitCondition": ">= 6"}, {"line": 53, "logMessage": "the last has {length}"}])
        self.assertEqual(self.editor.move("continue"), ("breakpoint", 49))
        self.assertEqual(self.editor.evaluate("found.words"), "7")
        self.editor.ask("continue", threadId=1)
        told = [self.editor.event("output")["body"] for _ in range(2)]
        self.assertIn({"category": "console", "output": "the last has 3\n"}, told)

    def test_data_breakpoints(self) -> None:
        """words.c counts words in `found`, whose first member changes with each word."""
        self.stop_at(49)
        scopes = self.editor.ask("scopes", frameId=0)["body"]["scopes"]
        info = self.editor.ask("dataBreakpointInfo", variablesReference=scopes[0]["variablesReference"], name="found")
        self.assertEqual(info["body"]["accessTypes"], ["write"])
        self.assertIsNone(self.editor.ask("dataBreakpointInfo", name="nothing", frameId=0)["body"]["dataId"])
        answer = self.editor.ask("setDataBreakpoints", breakpoints=[{"dataId": info["body"]["dataId"]}])
        self.assertTrue(answer["body"]["breakpoints"][0]["verified"])
        self.editor.ask("setBreakpoints", source=SOURCE, breakpoints=[])
        self.assertEqual(self.editor.move("continue")[0], "data breakpoint")
        self.assertEqual(self.editor.evaluate("found"), "{words = 1, longest = 0, sum = 0}")
        self.assertEqual(self.editor.move("continue")[0], "data breakpoint")
        self.assertEqual(self.editor.evaluate("found"), "{words = 1, longest = 0, sum = 3}")
        self.assertEqual(self.editor.move("reverseContinue")[0], "data breakpoint")
        self.assertEqual(self.editor.move("reverseContinue")[0], "data breakpoint")
        self.assertEqual(self.editor.evaluate("found"), "{words = 0, longest = 0, sum = 0}")
        self.assertFalse(self.editor.ask("setDataBreakpoints", breakpoints=[{"dataId": "0x0 99 all"}])
                         ["body"]["breakpoints"][0]["verified"])

    def test_instructions(self) -> None:
        self.stop_at(49)
        here = self.editor.frames()[0]["instructionPointerReference"]
        found = self.editor.ask("disassemble", memoryReference=here, instructionOffset=-2, instructionCount=5)
        texts = [one["instruction"].strip() for one in found["body"]["instructions"]]
        self.assertEqual(texts[1:4], ["br 1", "local.get 3", "i32.load offset=8"])
        after = found["body"]["instructions"][3]["address"]
        answer = self.editor.ask("setInstructionBreakpoints", breakpoints=[{"instructionReference": after}])
        self.assertTrue(answer["body"]["breakpoints"][0]["verified"])
        self.editor.move("continue")
        self.assertEqual(self.editor.frames()[0]["instructionPointerReference"], after)

    def test_a_frame_of_the_console_after_a_move(self) -> None:
        """The console looks at the innermost frame again, which is the only one then."""
        self.stop_at(35)
        self.editor.ask("setBreakpoints", source=SOURCE, breakpoints=[])
        self.assertEqual(self.editor.evaluate("frame 2", "repl").partition(" ")[0], "#2")
        for _ in range(2):
            self.editor.move("stepOut")
        self.assertEqual(len(self.editor.frames()), 1)
        for command, shown in (("frame", "#0 "), ("info locals", "local 0"), ("list", "  ")):
            self.assertTrue(self.editor.evaluate(command, "repl").startswith(shown), command)

    def test_end(self) -> None:
        self.launch()
        self.editor.ask("setFunctionBreakpoints", breakpoints=[{"name": "decimal"}, {"name": "none"}])
        self.editor.ask("configurationDone")
        self.editor.event("stopped")
        self.editor.ask("setFunctionBreakpoints", breakpoints=[])
        self.editor.ask("continue", threadId=1)
        self.assertEqual(self.editor.event("output")["body"], {"category": "stdout", "output": "35\n"})
        self.assertEqual(self.editor.event("output")["body"]["output"], "ended after 8069 turns: exit, exit 9\n")
        self.assertEqual(self.editor.event("exited")["body"]["exitCode"], 9)
        self.editor.event("terminated")

    def test_back_from_the_end(self) -> None:
        self.launch(stopAtEnd=True)
        self.editor.ask("configurationDone")
        self.assertEqual(self.editor.event("stopped")["body"]["description"], "the task has ended")
        self.assertEqual(self.editor.frames(), [])
        self.assertEqual(self.editor.move("stepBack"), ("step", 61))


class Instructions(WithEditor):
    """Functions as sources of their own."""

    def test_a_function_as_a_source(self) -> None:
        file = self.enterContext(tempfile.NamedTemporaryFile(suffix=".wasm"))
        file.write(EXIT_7)
        file.flush()
        self.launch(program=file.name, stopOnEntry=True)
        self.editor.ask("configurationDone")
        self.assertEqual(self.editor.event("stopped")["body"]["reason"], "entry")
        source = self.editor.frames()[0]["source"]
        self.assertEqual(self.editor.ask("source", source=source, sourceReference=source["sourceReference"])["body"],
                         {"content": "i32.const 7\ncall 0\n"})
        answer = self.editor.ask("setBreakpoints", source=source, breakpoints=[{"line": 2}, {"line": 3}])
        self.assertEqual([found["verified"] for found in answer["body"]["breakpoints"]], [True, False])
        self.assertEqual(self.editor.move("continue"), ("breakpoint", 2))
        self.editor.ask("continue", threadId=1)
        self.assertEqual(self.editor.event("exited")["body"]["exitCode"], 7)

    def test_a_trap(self) -> None:
        """It is an exception, before the instruction that traps, unless the editor does not want that."""
        file = self.enterContext(tempfile.NamedTemporaryFile(suffix=".wasm"))
        file.write(TRAPPING_BYTES)
        file.flush()
        self.launch(program=file.name)
        self.editor.ask("configurationDone")
        stop = self.editor.event("stopped")["body"]
        self.assertEqual((stop["reason"], stop["text"]),
                         ("exception", "trap unreachable: the next instruction ends the task"))
        self.assertEqual([frame["line"] for frame in self.editor.frames()], [3])
        self.assertEqual(self.editor.ask("exceptionInfo", threadId=1)["body"]["exceptionId"], "unreachable")
        self.assertEqual(self.editor.move("stepBack"), ("step", 2))
        self.assertFalse(self.editor.ask("exceptionInfo", threadId=1)["success"])
        self.assertEqual(self.editor.ask("setExceptionBreakpoints", filters=[])["body"], {"breakpoints": []})
        self.editor.ask("continue", threadId=1)
        self.assertEqual(self.editor.event("exited", "stopped")["body"], {"exitCode": 134})

    def test_arguments_of_another_type(self) -> None:
        """They are refused, and the session goes on."""
        for name, value in (("args", "one two"), ("args", 5), ("args", [5]), ("env", ["A=b"])):
            answer = self.editor.ask("launch", **{"program": str(FOLDER / "words.wasm"), name: value})
            self.assertFalse(answer["success"], value)
            self.assertIn(f"`{name}` is ", answer["message"])
        self.launch(env={"A": 1})
        self.assertFalse(self.editor.ask("stackTrace", threadId=1, startFrame="first")["success"])
        self.assertFalse(self.editor.ask("setBreakpoints", source=SOURCE, breakpoints=[49])["success"])
        self.assertTrue(self.editor.ask("threads")["success"])

    def test_faults(self) -> None:
        self.assertFalse(self.editor.ask("stackTrace", threadId=1)["success"])
        self.assertFalse(self.editor.ask("launch", program="/nowhere")["success"])
        self.assertFalse(self.editor.ask("launch")["success"])
        self.launch()
        self.assertFalse(self.editor.ask("scopes")["success"])
        self.assertFalse(self.editor.ask("dance")["success"])
        self.assertTrue(self.editor.ask("disconnect")["success"])


class Moves(unittest.TestCase):
    """A session without a process of its own."""

    def setUp(self) -> None:
        shim = self.enterContext(feulgama.Shim(SHIM))
        file = FOLDER / "words.wasm"
        self.debugger = open_debugger(shim, file, file.read_bytes(), [], {}, None)
        self.written = io.BytesIO()
        self.session = Session(Writer(self.written), lambda _given: self.debugger)
        self.session.answer({"command": "launch", "arguments": {}})

    def told(self) -> list[Body]:
        """What was written after the launch."""
        self.written.seek(0)
        return list(iter(lambda: read_message(self.written), None))[2:]

    def test_a_move_that_fails(self) -> None:
        """It was answered already, so the editor is told that the run stands still again."""
        with mock.patch.object(self.debugger, "go_back", side_effect=TooFarError("it is too far")):
            self.session.answer({"command": "reverseContinue"})
        told = self.told()
        self.assertEqual([found.get("event", "") for found in told], ["", "output", "stopped"])
        self.assertEqual([told[1]["body"]["output"], told[2]["body"]["description"]], ["it is too far\n", "it is too far"])

    def test_a_fault_of_the_adapter(self) -> None:
        """It is told, and the session goes on."""
        with mock.patch.object(self.debugger, "frames", side_effect=IndexError("one too many")):
            self.session.answer({"command": "stackTrace"})
        with mock.patch.object(self.debugger, "go_back", side_effect=IndexError("one too many")):
            self.session.answer({"command": "reverseContinue"})
        told = self.told()
        self.assertEqual([found.get("event", found.get("success")) for found in told], [False, True, "output", "stopped"])
        self.assertEqual((told[0]["message"], told[2]["body"]["output"]),
                         ("IndexError: one too many", "IndexError: one too many\n"))

    def test_a_pause_that_is_answered_at_once(self) -> None:
        """It breaks off nothing that comes after it, and takes back no interrupt but its own."""
        are_set: list[bool] = []
        for command in ("pause", "threads", "pause", "disconnect"):
            self.session.inbox.put({"command": command})
        for _ in range(4):
            are_set.append(self.debugger.timeline.interrupted.is_set())
            self.take()
        self.assertEqual((are_set, self.debugger.timeline.interrupted.is_set()), (4 * [True], False))
        self.assertEqual(self.told()[0]["command"], "pause")

    def take(self) -> None:
        """Answers the next message."""
        message = self.session.inbox.get()
        assert isinstance(message, dict)
        self.session.answer(message)

    def test_a_move_that_fails_after_a_breakpoint_was_set(self) -> None:
        """On its way, so that the last response is not to the move."""
        def go_on() -> Why:
            if not self.session.inbox.interrupted.is_set():
                raise TooFarError("it is too far")
            return Why.INTERRUPTED
        self.session.inbox.put({"command": "setBreakpoints", "arguments": {"source": SOURCE}})
        with mock.patch.object(self.debugger, "go_on", go_on):
            self.session.answer({"command": "continue"})
        self.assertEqual([found.get("event") or found["command"] for found in self.told()],
                         ["continue", "setBreakpoints", "output", "stopped"])

    def test_a_breakpoint_while_writes_are_looked_for(self) -> None:
        """It waits, and the search goes on. A pause breaks it off."""
        are_set: list[bool] = []

        def go_on() -> Why:
            are_set.append(self.session.inbox.interrupted.is_set())
            self.session.inbox.put({"command": "pause"})
            are_set.append(self.session.inbox.interrupted.is_set())
            return Why.INTERRUPTED
        self.session.inbox.put({"command": "setFunctionBreakpoints"})
        with mock.patch.object(self.debugger, "go_on", go_on), mock.patch.object(self.debugger, "watchpoints", {1: None}):
            self.session.answer({"command": "continue"})
            self.take()
        self.assertEqual((are_set, [found.get("event") or found["command"] for found in self.told()]),
                         ([False, True], ["continue", "stopped", "setFunctionBreakpoints"]))

    def test_a_breakpoint_on_the_way_back_from_a_trap(self) -> None:
        """The run stops before the trap nevertheless."""
        shim = self.enterContext(feulgama.Shim(SHIM))
        self.debugger = open_debugger(shim, FOLDER / "words.wasm", TRAPPING_BYTES, [], {}, None)
        self.session.answer({"command": "launch", "arguments": {}})
        seek, inbox, turns = self.debugger.timeline.seek, self.session.inbox, list[int]()

        def late(turn: int) -> Why:
            turns.append(turn)
            if len(turns) == 1:
                inbox.put({"command": "setFunctionBreakpoints"})
                return Why.INTERRUPTED
            return seek(turn)
        with mock.patch.object(self.debugger.timeline, "seek", late):
            self.session.answer({"command": "continue"})
        self.assertEqual((turns, self.told()[-1]["body"]["reason"]), ([2, 2], "exception"))

    def test_a_restart_after_the_end_was_asked_for(self) -> None:
        self.session.inbox.put({"command": "terminate"})
        self.session.inbox.put({"command": "restart"})
        self.take()
        self.take()
        self.assertEqual([found["event"] for found in self.told() if found["type"] == "event"][-2:], ["exited", "terminated"])

    def test_output_after_a_restart(self) -> None:
        """It is that of a new run, and shown again. It is text of its own, too, whatever half a character the last one had."""
        self.session.answer({"command": "configurationDone"})
        for decoder in self.session._decoders.values():
            decoder.decode(b"\xc3")
        self.session.answer({"command": "restart"})
        self.assertEqual([found["body"]["output"] for found in self.told() if found.get("event") == "output"],
                         2 * ["35\n", "ended after 8069 turns: exit, exit 9\n"])


class Endless(WithEditor):
    """The same program as in the next class, in bytes. It runs when a test begins."""

    def setUp(self) -> None:
        super().setUp()
        file = self.enterContext(tempfile.NamedTemporaryFile(suffix=".wasm"))
        file.write(FOREVER_BYTES)
        file.flush()
        self.launch(program=file.name)
        self.editor.ask("configurationDone")

    def assert_runs(self) -> None:
        """Checks that the program runs, and has not stopped since the events were looked at."""
        self.assertNotIn("stopped", [found["event"] for found in self.editor.events])
        self.assertTrue(self.editor.ask("pause", threadId=1)["success"])
        self.assertEqual(self.editor.event("stopped")["body"]["reason"], "pause")

    def test_restart(self) -> None:
        for _ in range(2):
            self.assertTrue(self.editor.ask("restart")["success"])
            self.assert_runs()
            self.assertTrue(self.editor.ask("continue", threadId=1)["success"])

    def test_disconnect_right_after_another_request(self) -> None:
        """That does not take the interrupt of this one back."""
        for command in ("pause", "restart", "continue", "disconnect"):
            self.editor.send(command)
        self.assertEqual(self.editor.process.wait(10), 0)

    def test_a_breakpoint_while_it_runs(self) -> None:
        """The run goes on, and stops there. Line 3 is the instruction 2 of the loop."""
        answer = self.editor.ask("setBreakpoints", source={"sourceReference": 1000}, breakpoints=[{"line": 3}])
        self.assertTrue(answer["body"]["breakpoints"][0]["verified"])
        self.assertEqual(self.editor.event("stopped")["body"]["reason"], "breakpoint")
        self.assertEqual(self.editor.frames()[0]["line"], 3)
        turn = int(self.editor.evaluate("turn"))
        self.assertEqual(self.editor.move("continue"), ("breakpoint", 3))
        self.assertEqual(int(self.editor.evaluate("turn")), turn + 6)

    def test_what_is_answered_while_it_runs(self) -> None:
        self.assertEqual(self.editor.ask("threads")["body"]["threads"], [{"id": 1, "name": "task"}])
        for kind in ("", "Function", "Instruction", "Data"):
            self.assertTrue(self.editor.ask(f"set{kind}Breakpoints", breakpoints=[], source=SOURCE)["success"], kind)
        self.assertTrue(self.editor.ask("setExceptionBreakpoints", filters=["traps"])["success"])
        self.assert_runs()

    def test_breakpoints_right_after_a_move(self) -> None:
        """They may have been sent before it began."""
        self.assert_runs()
        self.editor.send("continue", threadId=1)
        self.editor.send("setBreakpoints", source={"sourceReference": 1000}, breakpoints=[{"line": 3}])
        self.assertEqual(self.editor.event("stopped")["body"]["reason"], "breakpoint")


@pytest.mark.program
class Forever(WithEditor):
    """A program that does not end, as a text."""

    def setUp(self) -> None:
        super().setUp()
        file = self.enterContext(tempfile.NamedTemporaryFile(suffix=".wat"))
        file.write(FOREVER)
        file.flush()
        self.launch(program=file.name)
        self.editor.ask("configurationDone")

    @pytest.mark.clock
    def test_pause(self) -> None:
        for _ in range(3):
            time.sleep(0.2)
            begin = time.monotonic()
            self.editor.ask("pause", threadId=1)
            self.assertEqual(self.editor.event("stopped")["body"]["reason"], "pause")
            self.assertLess(time.monotonic() - begin, 2)
            turn = int(self.editor.evaluate("turn"))
            self.assertEqual(self.editor.evaluate("local 0"), f"i32:{(turn + 1) // 6}")
            self.assertTrue(self.editor.ask("continue", threadId=1)["success"])

    @pytest.mark.clock
    def test_disconnect_while_it_runs(self) -> None:
        begin = time.monotonic()
        self.assertTrue(self.editor.ask("disconnect")["success"])
        self.assertEqual(self.editor.process.wait(10), 0)
        self.assertLess(time.monotonic() - begin, 3)


class Messages(unittest.TestCase):
    def test_an_input_that_is_of_no_editor(self) -> None:
        run = subprocess.run([CLIENT / "bin/feulgama", "--shim", SHIM, "dap"], input=b"hello\n", capture_output=True,
                             check=False)
        self.assertEqual((run.returncode, run.stdout), (1, b""))
        self.assertIn(b"feulgama: no head of a message: b'hello\\n'; this command speaks", run.stderr)

    def test_whatever_ends_the_reading_is_told(self) -> None:
        """Or the adapter would wait for ever."""
        inbox = Inbox()
        with mock.patch("feulgama.dap.adapter.read_message", side_effect=MemoryError), self.assertRaises(MemoryError):
            read_all(io.BytesIO(), inbox)
        self.assertEqual((inbox.interrupted.is_set(), inbox.get()), (True, None))

    def test_faults(self) -> None:
        self.assertIsNone(read_message(io.BytesIO(b"")))
        self.assertIsNone(read_message(io.BytesIO(b"Content-Length: 9\r\n\r\n{}")))
        for data in (b"\r\n", b"Content-Length: 2\r\n\r\n[]", b"Content-Length: 1\r\n\r\n{",
                     b"Content-Length: " + 20 * b"9" + b"\r\n\r\n",
                     b"Content-Length: 100000\r\n\r\n" + 100_000 * b"["):
            with self.assertRaises(BadMessageError):
                read_message(io.BytesIO(data))
