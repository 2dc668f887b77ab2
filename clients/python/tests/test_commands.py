"""The words of the terminal: commands, places, expressions and formats."""
from __future__ import annotations

import contextlib
import importlib.util
import io
import os
import signal
import subprocess
import sys
import tempfile
import threading
import unittest
from pathlib import Path
from types import FrameType
from typing import Any
from unittest import mock

import feulgama
from feulgama.debug import dwarf, terminal
from feulgama.debug.commands import COMMANDS, Commands, Quit
from feulgama.debug.lines import MOST_SOURCE, Sources
from feulgama.debug.memory import BadFormatError, Format, dump, format_of
from feulgama.debug.terminal import Interrupts, answer, plain, words_for
from feulgama.errors import FeulgamaError
from feulgama.opening import open_debugger
from tests.support import CLIENT, SHIM, TRAPPING_BYTES, full_disk

MODULE = CLIENT / "examples/words.wasm"


def press(count: int) -> None:
    """Presses Ctrl-C so often."""
    for _ in range(count):
        os.kill(os.getpid(), signal.SIGINT)


class Pressed(io.StringIO):
    """A terminal at which Ctrl-C is pressed when it has shown a text, or each time that all is shown if that is empty."""

    def __init__(self, after: str) -> None:
        super().__init__()
        self._after = after

    def write(self, text: str) -> int:
        press(1 if self._after and self._after in text else 0)
        return super().write(text)

    def flush(self) -> None:
        press(0 if self._after else 1)


class Terminal(unittest.TestCase):
    def setUp(self) -> None:
        shim = self.enterContext(feulgama.Shim(SHIM))
        self.commands = Commands(open_debugger(shim, MODULE, MODULE.read_bytes(), [], {}, None))

    def answer(self, line: str) -> list[str]:
        return list(self.commands.answer(line))

    def fault(self, line: str) -> str:
        with self.assertRaises(FeulgamaError) as found:
            self.answer(line)
        return str(found.exception)

    def test_names_of_commands(self) -> None:
        names = [word for command in COMMANDS for word in (command.name, *command.short)]
        self.assertEqual(len(names), len(set(names)))
        self.assertEqual(self.answer("backt"), self.answer("bt"))
        self.assertEqual(self.fault("re"), "re is no command; is it reverse-step or reverse-stepi or reverse-continue?")
        self.assertEqual(self.fault("dance"), "dance is no command; see help")
        self.assertEqual(len(self.answer("help")), len(COMMANDS))
        with self.assertRaises(Quit):
            self.answer("q")

    def test_nothing_commands_the_terminal(self) -> None:
        """What is shown may come from a module that nobody trusts."""
        self.assertEqual(plain("\x1b[2J\ta\x07 \x9b1m \x7f ä"), "\\x1b[2J\ta\\x07 \\x9b1m \\x7f ä")
        shown = io.StringIO()
        with contextlib.redirect_stdout(shown), mock.patch.object(self.commands, "answer", lambda _line: ["\x1b]0;title\x07"]):
            answer(self.commands, "info output")
        self.assertEqual(shown.getvalue(), "\\x1b]0;title\\x07\n")

    def test_bytes_that_are_not_text(self) -> None:
        """A user is told, and goes on."""
        fault = UnicodeDecodeError("utf-8", b"\xff", 0, 1, "invalid start byte")
        with contextlib.redirect_stdout(io.StringIO()) as shown, mock.patch.dict(sys.modules, prompt_toolkit=None), \
                mock.patch("builtins.input", side_effect=[fault, "info memory", EOFError]):
            self.assertEqual(list(terminal.asked(self.commands, Interrupts(self.commands.timeline))), ["info memory"])
        self.assertEqual(shown.getvalue(), "a command is text in UTF-8, and this line is not\n")

    def test_surrogates_are_shown(self) -> None:
        """By prompt_toolkit they come in the place of bytes that are not text."""
        with contextlib.redirect_stdout(io.TextIOWrapper(io.BytesIO(), "utf-8")) as written:
            answer(self.commands, "\udcff")
        written.seek(0)
        self.assertEqual(written.read(), "\\udcff is no command; see help\n")

    def test_signals_that_come_while_one_is_taken(self) -> None:
        """The handler may run between any two lines of itself, and of what takes the interrupt back."""
        interrupted = self.commands.timeline.interrupted

        def again(_frame: FrameType, _event: str, _of: Any) -> Any:
            interrupted.set()
            return again

        def take() -> None:
            sys.settrace(again)
            interrupted.set()
            interrupted.clear()
            sys.settrace(None)
        thread = threading.Thread(target=take, daemon=True)
        thread.start()
        thread.join(10)
        self.assertFalse(thread.is_alive())

    def test_signals_between_commands(self) -> None:
        """As the second one of two, whose first has broken off what was running. While a line is read, one breaks that off."""
        before = signal.getsignal(signal.SIGINT)
        lines = iter(["", "info memory"])

        def read() -> str:
            line = next(lines, None)
            if line == "":
                press(1)
            if line is None:
                raise EOFError
            return line
        with contextlib.redirect_stdout(Pressed("")) as out, mock.patch.object(terminal, "reader", lambda _commands: read):
            self.assertEqual(terminal.debug(self.commands, mock.Mock(isatty=lambda: True)), 0)
        self.assertEqual(out.getvalue().splitlines()[-1], "65536 bytes, 1 pages")
        self.assertIs(signal.getsignal(signal.SIGINT), before)

    def test_a_signal_while_much_is_shown(self) -> None:
        """A short text is shown whole, as is what a move shows that was broken off."""
        for line, count in (("x/160xb 0", 10), ("x/65536xb 0", None)):
            with contextlib.redirect_stdout(Pressed("0x00000010: ")) as told:
                answer(self.commands, line)
            shown = told.getvalue().splitlines()
            self.assertEqual(len(shown) if count else shown[-1], count or "interrupted", line)
            self.assertLess(len(shown), 200)
        lines = [f"stdout: {number}" for number in range(500)]

        def broken_off(_line: str) -> list[str]:
            press(1)
            return lines
        with contextlib.redirect_stdout(io.StringIO()) as out, mock.patch.object(self.commands, "answer", broken_off):
            answer(self.commands, "continue")
        self.assertEqual(out.getvalue().splitlines(), lines)

    def test_places(self) -> None:
        self.assertEqual(self.answer("break count:3")[0].split(" <")[0], "breakpoint 1 at 3:3")
        self.assertEqual(self.answer("break 7:0")[0].split(" <")[0], "breakpoint 2 at 7:0")
        self.assertEqual(self.answer("b")[0].split(" <")[0], "breakpoint 3 at 2:0")
        self.assertEqual(self.fault("break nothing"), "there is no function and no source file named nothing")
        self.assertEqual(self.fault("break 3:999"), "there is no instruction 3:999")
        self.assertEqual(self.fault("break proc_exit"), "function 0 is an import, and has no instructions")
        self.answer("delete 2")
        self.assertEqual(len(self.answer("info breakpoints")), 2)
        self.assertEqual(self.fault("delete 2"), "there is no breakpoint 2")
        self.answer("delete")
        self.assertEqual(self.answer("info breakpoints"), ["no breakpoints"])

    @unittest.skipUnless(dwarf.IS_THERE, "needs python3-pyelftools")
    def test_lines(self) -> None:
        self.assertEqual(self.answer("break words.c:48")[-1], "breakpoint 1 at 3:95 <count> words.c:48")
        self.assertEqual(self.answer("break words.c:52")[0], "line 52 has no statement; the next one is at line 53")
        self.assertEqual(self.fault("break words.c:999"), "there is no statement from line 999 on in words.c")

    def test_expressions(self) -> None:
        self.answer("goto 20")
        shown = {"1 + 2 * 3": "7", "(1 + 2) * 3": "9", "0x10 - 1": "15", "-(2)": "-2", "turn": "20",
                 "local 0": "i32:1024 (0x400)", "local 0 + 1": "1025", "*1024": "i32:543516788 (0x20656874)"}
        for text, wanted in shown.items():
            self.assertEqual(self.answer(f"print {text}"), [wanted], text)
        more = {"7 / 2": "3", "-7 / 2": "-3", "-7 % 4": "-3", "1 << 4 | 1": "17", "6 & 3 ^ 1": "3", "2 < 3 && 3 <= 3": "1",
                "1 == 2 || 0 != 0": "0", "!5": "0", "~0": "-1", "'a' + 1": "98", "10 - 2 - 3": "5", "2 + 3 == 5": "1",
                "(char) 321": "char 65 'A'", "(u8) 300": "u8 44", "(short) 65535": "short -1",
                "*(unsigned short *) 1024": "unsigned short 26740", "*(char *) 1024": "char 116 't'",
                "((char *) 1024)[4]": "char 113 'q'",
                "(char *) 1024 + 4": "char * 0x404 'quick brown fox jumps over the lazy dog'"}
        for text, wanted in more.items():
            self.assertEqual(self.answer(f"print {text}"), [wanted], text)
        for text in ("1 / 0", "(struct none *) 4", "*(void *) 4", "1.x", "1[0]", "&1",
                     "", "1 +", "(1", "1 2", "local", "local x", "local 99", "operand 99", "nothing", "?", "*70000"):
            self.assertTrue(self.fault(f"print {text}"), text)

    def test_expressions_that_are_too_large(self) -> None:
        for text in ("1.5 + " + 400 * "9", 5000 * "9", 4000 * "9" + " * " + 4000 * "9", 500 * "(" + "1" + 500 * ")"):
            self.assertEqual(self.fault(f"print {text}"), f"{text[:40]}.. is too large to be computed")

    @unittest.skipUnless(dwarf.IS_THERE, "needs python3-pyelftools")
    def test_conditions(self) -> None:
        """The text's words have 3 5 5 3 5 4 3 4 3 letters: `end_word` is called with these, in this order."""
        self.answer("break end_word if length == 3")
        lengths = []
        while "ended" not in self.answer("continue")[-1]:
            lengths.append(self.answer("print length"))
        self.assertEqual(lengths, [["unsigned int 3"]] * 4)
        self.assertIn("if length == 3, hit 4 times", self.answer("info breakpoints")[0])
        self.answer("condition 1 length > 4")
        for _ in range(3):
            self.answer("reverse-continue")
            self.assertEqual(self.answer("print length"), ["unsigned int 5"])
        self.assertEqual(self.answer("reverse-continue")[0], "the begin of the run")
        self.assertEqual(self.fault("condition 9 1"), "there is no breakpoint 9")
        self.answer("condition 1 nothing > 4")
        self.assertIn("breakpoint 1: nothing > 4: there is nothing named nothing in this frame", self.answer("continue"))

    @unittest.skipUnless(dwarf.IS_THERE, "needs python3-pyelftools")
    def test_counts_logs_and_what_stops_once(self) -> None:
        self.answer("tbreak end_word")
        self.answer("continue")
        self.assertEqual(self.answer("info breakpoints"), ["no breakpoints"])
        self.answer("goto 0")
        self.answer("break end_word")
        self.assertIn("stops after 6 more", self.answer("ignore 2 6")[0])
        self.answer("continue")
        self.assertEqual((self.answer("print length"), self.answer("print found.words")),
                         (["unsigned int 3"], ["unsigned int 6"]))
        self.answer("delete")
        self.answer("goto 0")
        self.answer("log end_word a word of {length}, {found.words} before it; {nothing}")
        told = [line for line in self.answer("continue") if line.startswith("a word")]
        self.assertEqual([line.partition(";")[0] for line in told],
                         [f"a word of {length}, {count} before it" for count, length in enumerate("355354343")])
        self.assertIn("(there is nothing named nothing in this frame)", told[0])

    @unittest.skipUnless(dwarf.IS_THERE, "needs python3-pyelftools")
    def test_habits(self) -> None:
        """Lines, arguments, values at each stop, what a function returned, and breakpoints in a file."""
        self.answer("break decimal if number == 3")
        self.answer("display number * 2")
        self.assertEqual(self.answer("continue")[-1], "1: number * 2 = 6")
        self.assertIn("<decimal> (number=3, to=", self.answer("bt 1")[0])
        self.assertIn("    unsigned int number = 3", self.answer("bt full 1"))
        self.assertEqual(self.answer("undisplay"), [])
        self.assertEqual(self.answer("finish")[-1], "returned unsigned int 1")
        self.answer("goto 0")
        self.assertIn("words.c:57", self.answer("next")[0])
        self.assertIn("words.c:44", self.answer("step")[0])
        turn = int(self.answer("print turn")[0])
        self.assertIn(f"turn {turn + 4} ", self.answer("stepi 4")[0])
        self.assertIn(f"turn {turn + 3} ", self.answer("reverse-stepi")[0])
        self.assertIn(f"words.c is {CLIENT}/examples/words.c", self.answer("info source")[0])
        file = Path(self.enterContext(tempfile.TemporaryDirectory())) / "saved"
        self.answer("watch found.sum")
        self.answer(f"save breakpoints {file}")
        self.assertEqual(file.read_text(), "break decimal if number == 3\nwatch found.sum\n")
        self.assertEqual(len(self.answer("help finish")), 1)

    @unittest.skipUnless(dwarf.IS_THERE, "needs python3-pyelftools")
    def test_parameters_before_they_are_there(self) -> None:
        """At the first instruction of a function that is not optimized nothing wrong is shown."""
        self.answer("break end_word:0")
        self.answer("continue")
        self.assertEqual(self.answer("info variables")[0],
                         "unsigned int length = (its function has not set up its frame yet)")

    def test_words_that_are_no_numbers(self) -> None:
        """Digits that no number has, and more of them than Python reads."""
        for word in ("²", 5000 * "9"):
            for line in (f"step {word}", f"goto {word}", f"delete {word}", f"condition {word} 1", f"break {word}",
                         f"break 3:{word}", f"watch 1024 {word}", f"x/{word}xw 1024"):
                self.assertTrue(self.fault(line), line)

    def test_a_file_that_cannot_be_written(self) -> None:
        for name in ("/none/saved", "a\0b"):
            self.assertTrue(self.fault(f"save breakpoints {name}").startswith(f"{name}: "), name)
        file = Path(self.enterContext(tempfile.TemporaryDirectory())) / "saved"
        file.write_text("break count\n")
        self.answer("break decimal")
        with full_disk(10):
            self.assertEqual(self.fault(f"save breakpoints {file}"), f"{file}: File too large")
        self.assertEqual(file.read_text(), "break count\n")

    def test_texts_up_to_the_end_of_memory(self) -> None:
        data = 250 * b"a" + b"\0b\0"
        shown = dump(Format(10**18, "s", 1), 0, lambda address, size: data[address:address + size])
        self.assertEqual(list(shown), [f"0x00000000: '{200 * 'a'}'...", f"0x000000c8: '{50 * 'a'}'", "0x000000fb: 'b'",
                                       "0x000000fd: no memory"])

    def test_memory(self) -> None:
        self.assertEqual(self.answer("x/4xw 1024"), ["0x00000400: 0x20656874 0x63697571 0x7262206b 0x206e776f"])
        self.assertEqual(self.answer("x/2dh 1024"), ["0x00000400: 26740 8293"])
        self.assertEqual(self.answer("x/3c 1024"), ["0x00000400: 't' 'h' 'e'"])
        self.assertEqual(self.answer("x/gx 1024"), ["0x00000400: 0x6369757120656874"])
        self.assertEqual(self.answer("x/s 1024")[0][:30], "0x00000400: 'the quick brown f")
        self.assertEqual(self.answer("x/2xw 65532"), ["0x0000fffc: 0x00000000", "0x00010000: no memory"])
        self.assertEqual(format_of(""), Format())
        with self.assertRaises(BadFormatError):
            format_of("4q")
        self.assertEqual(self.fault("x"), "x takes an address: x/4xw 1024")

    def test_the_end(self) -> None:
        self.assertEqual(self.answer("continue"), ["stdout: 35", "ended after 8069 turns: exit, exit 9"])
        self.assertEqual(self.answer("backtrace"), ["no frames"])
        for line in ("frame", "info locals", "list", "finish", "print local 0", "break"):
            self.assertTrue(self.fault(line), line)
        self.assertEqual(self.answer("step"), ["ended after 8069 turns: exit, exit 9"])
        self.assertIn("turn 8068", self.answer("rs")[0])
        self.assertEqual(self.answer("continue"), ["ended after 8069 turns: exit, exit 9"])
        self.assertEqual(self.answer("run"), ["stdout: 35", "ended after 8069 turns: exit, exit 9"])

    def test_a_frame_that_is_gone(self) -> None:
        """A move may fail, and leave the run elsewhere."""
        self.answer("break end_word")
        self.answer("continue")
        self.answer("frame 2")
        self.commands.timeline.seek(0)
        for line in ("info locals", "frame", "list", "break", "finish"):
            self.assertEqual(self.fault(line), "there is no frame 2", line)

    def test_a_trap(self) -> None:
        """A run stops before the instruction that traps, once; then it ends."""
        shim = self.enterContext(feulgama.Shim(SHIM))
        self.commands = Commands(open_debugger(shim, MODULE, TRAPPING_BYTES, [], {}, None))
        trap = "trap unreachable: the next instruction ends the task"
        end = ["ended after 3 turns: trap unreachable, exit 134"]
        for move in ("continue", "run", "step 100", "finish"):
            self.answer("goto 0")
            self.assertEqual(self.answer(move), [trap, "turn 2 at 0:2 <_start>, 1 frame", "=>  0:2  unreachable"], move)
        self.assertEqual(self.answer("continue"), end)
        self.assertEqual(self.answer("reverse-step")[0], trap)
        self.assertEqual(self.answer("step"), end)
        self.assertEqual(self.answer("reverse-step 2")[0][:6], "turn 1")
        self.assertEqual(self.answer("next")[0], trap)
        self.assertEqual(self.answer("goto 3"), end)

    def test_a_breakpoint_at_the_first_turn(self) -> None:
        self.answer("break start:0")
        self.assertIn("turn 0", self.answer("run")[1])
        self.assertIn("ended", self.answer("continue")[-1])

    @unittest.skipUnless(importlib.util.find_spec("prompt_toolkit"), "needs python3-prompt-toolkit")
    def test_a_history_that_cannot_be_kept(self) -> None:
        """As on a full disk, or without a folder of the user's own."""
        folder = self.enterContext(tempfile.TemporaryDirectory())
        for place in (folder, f"{folder}/none/history"):
            with mock.patch.object(terminal, "HISTORY", place), mock.patch("prompt_toolkit.PromptSession") as made:
                terminal.reader(self.commands)
            history = made.call_args.kwargs["history"]
            self.assertEqual(list(history.load_history_strings()), [])
            history.append_string("info memory")
            self.assertEqual(history.get_strings(), ["info memory"])
        with mock.patch.object(terminal, "HISTORY", f"{folder}/history"), mock.patch("prompt_toolkit.PromptSession") as made:
            terminal.reader(self.commands)
        made.call_args.kwargs["history"].append_string("break \udcff")

    def test_a_user_without_a_folder(self) -> None:
        """`feulgama lower` of a container may be run by one, without the variable HOME."""
        nobody = "import pwd\ndef nobody(_user): raise KeyError\npwd.getpwuid = nobody\nimport feulgama.cli\n"
        variables = {name: value for name, value in os.environ.items() if name != "HOME"}
        run = subprocess.run([sys.executable, "-c", nobody], cwd=CLIENT, env=variables, capture_output=True, text=True,
                             stdin=subprocess.DEVNULL, check=False)
        self.assertEqual((run.returncode, run.stderr), (0, ""))

    def test_completion(self) -> None:
        self.assertIn("reverse-step", words_for(self.commands, "rev"))
        self.assertIn("count", words_for(self.commands, "break c"))
        self.assertIn("locals", words_for(self.commands, "info "))
        self.assertEqual(words_for(self.commands, "step "), [])


class Texts(unittest.TestCase):
    """Sources, whose paths a module says that nobody may trust."""

    def setUp(self) -> None:
        self.folder = Path(self.enterContext(tempfile.TemporaryDirectory()))

    def test_a_path_that_may_not_be_looked_at(self) -> None:
        """As in a home of another user. What is beside the module is found nevertheless."""
        source = Sources([self.folder])
        self.assertIsNone(source.path(f"/{300 * 'n'}.c"))
        (self.folder / "main.c").write_text("one\n")
        with mock.patch.object(Path, "is_file", autospec=True, side_effect=self.is_file):
            self.assertEqual(source.path("/root/src/main.c"), self.folder / "main.c")
            self.assertIsNone(source.lines("/root/src/other.c"))

    def is_file(self, path: Path) -> bool:
        """Whether a file is there, for somebody who may not look into the home of root."""
        if path.is_relative_to("/root"):
            raise PermissionError(13, "Permission denied", str(path))
        return path.exists()

    def test_files_that_are_no_sources(self) -> None:
        """One that tells no size, as it may have no end, and one that is too large."""
        large = self.folder / "large.c"
        large.write_text("one\ntwo\n")
        self.assertEqual(Sources([self.folder]).lines("large.c"), ["one", "two"])
        os.truncate(large, MOST_SOURCE + 1)
        for name in (str(large), "/proc/self/status"):
            self.assertTrue(Sources([]).lines(name) is None, name)
