"""Modules that cannot be debugged: the message is the shim's own reason. The streams of a command, and the files it writes."""
from __future__ import annotations

import contextlib
import io
import os
import stat
import subprocess
import sys
import tempfile
import unittest
from pathlib import Path
from unittest import mock

import pytest

import feulgama
from feulgama import said
from feulgama.cli import main
from feulgama.files import write_whole
from feulgama.opening import NeedsMemoryError, RefusedError, open_debugger
from tests.support import ASCII, CLIENT, IS_REFERENCE, SHIM

WORDS = CLIENT / "examples/words.wasm"
HEAD, TYPE, FUNC, BODY = "0061736d01000000", "010401600000", "03020100", "0a040102000b"
VECTORS = bytes.fromhex(HEAD + "0105016001" + "7b00")
IMPORTS = bytes.fromhex(HEAD + TYPE + "020b0103656e7603666f6f0000" + FUNC + "070a01065f73746172740001" + BODY)
MEMORY = bytes.fromhex(HEAD + TYPE + FUNC + "0503010011" + "070a01065f73746172740000" + BODY)


class Refused(unittest.TestCase):
    def setUp(self) -> None:
        if IS_REFERENCE:  # it gives no reasons, and is not waited for
            self.enterContext(mock.patch.object(said, "PATIENCE", 0.1))

    def refusal(self, data: bytes) -> feulgama.FeulgamaError:
        with feulgama.Shim(SHIM) as shim, self.assertRaises(feulgama.FeulgamaError) as found:
            open_debugger(shim, Path("some.wasm"), data, [], {}, None)
        return found.exception

    def test_the_file_is_named(self) -> None:
        for data in (VECTORS, IMPORTS, MEMORY):
            self.assertTrue(str(self.refusal(data)).startswith("some.wasm: "))

    def test_kinds(self) -> None:
        self.assertIsInstance(self.refusal(VECTORS), RefusedError)
        self.assertIsInstance(self.refusal(IMPORTS), RefusedError)
        self.assertIsInstance(self.refusal(MEMORY), NeedsMemoryError)

    def test_what_raises_the_memory(self) -> None:
        """The option of this package, and no key of a config, which nobody has written."""
        told = str(self.refusal(MEMORY))
        self.assertTrue(told.endswith("--memory (`memory` in an editor's configuration) can raise that"), told)
        self.assertNotIn("linux", told)

    @pytest.mark.program
    def test_reasons(self) -> None:
        """The words of the program may change: a part of each that says what is wrong."""
        self.assertIn("vectors of 128 bits are outside the profile", str(self.refusal(VECTORS)))
        self.assertRegex(str(self.refusal(IMPORTS)), "22 BadImport.*foo")
        self.assertRegex(str(self.refusal(MEMORY)), "9 Limit.*17 pages")

    @pytest.mark.program
    def test_as_the_command_check_says_it(self) -> None:
        for data in (VECTORS, IMPORTS):
            with tempfile.NamedTemporaryFile() as file:
                file.write(data)
                file.flush()
                run = subprocess.run([SHIM, "check", "--task", "--explain", file.name], capture_output=True, check=False,
                                     text=True)
            self.assertIn(run.stderr.splitlines()[1].removeprefix("why: "), str(self.refusal(data)))

    def test_the_command(self) -> None:
        """One line on standard error, and status 1."""
        file = Path(self.enterContext(tempfile.TemporaryDirectory())) / "vectors.wasm"
        file.write_bytes(VECTORS)
        with contextlib.redirect_stderr(io.StringIO()) as told:
            self.assertEqual(main(["--shim", SHIM, "debug", str(file)]), 1)
            self.assertEqual(main(["--shim", SHIM, "debug", str(CLIENT / "none.wasm")]), 1)
        lines = told.getvalue().splitlines()
        self.assertEqual(len(lines), 2)
        self.assertTrue(all(line.startswith("feulgama: ") for line in lines), lines)

    def test_commands_that_are_not_text(self) -> None:
        """In a file, and on standard input."""
        file = Path(self.enterContext(tempfile.TemporaryDirectory())) / "commands"
        file.write_bytes(b"info memory\n\xff\n")
        debug = ["--shim", SHIM, "debug"]
        with contextlib.redirect_stderr(io.StringIO()) as told:
            self.assertEqual(main([*debug, "--commands", str(file), str(WORDS)]), 1)
        self.assertEqual(told.getvalue(), f"feulgama: {file}: commands are text in UTF-8, and byte 12 is not\n")
        with file.open(encoding="utf-8") as source, mock.patch("sys.stdin", source), \
                contextlib.redirect_stdout(io.StringIO()), contextlib.redirect_stderr(io.StringIO()) as told:
            self.assertEqual(main([*debug, str(WORDS)]), 1)
        self.assertEqual(told.getvalue(), "feulgama: standard input: commands are text in UTF-8, and this is not\n")

    def test_output_that_cannot_be_written(self) -> None:
        """One line on standard error, and nothing that Python says by itself."""
        read, write = os.pipe()
        os.close(read)
        full = os.open("/dev/full", os.O_WRONLY)
        for output, why in ((write, "[Errno 32] Broken pipe"), (full, "[Errno 28] No space left on device")):
            with open(output, "wb") as stream:
                run = subprocess.run([sys.executable, "-m", "feulgama", "--shim", SHIM, "--version"], cwd=CLIENT, check=False,
                                     stdin=subprocess.DEVNULL, stdout=stream, stderr=subprocess.PIPE, text=True)
            self.assertEqual((run.returncode, run.stderr), (1, f"feulgama: {why}\n"))

    def test_output_that_is_not_utf_8(self) -> None:
        """A character that it does not have is shown by its number."""
        file = Path(self.enterContext(tempfile.TemporaryDirectory())) / "commands"
        file.write_text("# \u00e4\n", encoding="utf-8")
        run = subprocess.run([sys.executable, "-m", "feulgama", "--shim", SHIM, "debug", "--commands", file, WORDS],
                             cwd=CLIENT, check=False, env={**os.environ, **ASCII}, stdin=subprocess.DEVNULL,
                             capture_output=True)
        self.assertEqual((run.returncode, run.stdout.splitlines()[-1], run.stderr), (0, b"(feulgama) # \\xe4", b""))

    def test_streams_that_are_closed(self) -> None:
        """Standard output alone, or all three, whose numbers pipes of the shim would have then."""
        lowered = Path(self.enterContext(tempfile.TemporaryDirectory())) / "lowered"
        for closed, words in ((">&-", ["--version"]), (">&- <&- 2>&-", ["lower", "-o", str(lowered), str(WORDS)]),
                              (">&-", ["debug", str(WORDS)]), ("<&- >&- 2>&-", ["debug", str(WORDS)])):
            run = subprocess.run(["sh", "-c", f'exec "$@" {closed}', "sh", sys.executable, "-m", "feulgama", "--shim", SHIM,
                                  *words], cwd=CLIENT, check=False, capture_output=True, input=b"continue\n")
            self.assertEqual((run.returncode, run.stdout, run.stderr), (0, b"", b""), (closed, words))
        self.assertTrue(lowered.is_file())

    def test_a_command_that_is_broken_off(self) -> None:
        """By Ctrl-C, before there is a debugger that takes it."""
        with mock.patch("feulgama.cli.open_debugger", side_effect=KeyboardInterrupt), \
                contextlib.redirect_stderr(io.StringIO()) as told:
            self.assertEqual(main(["--shim", SHIM, "debug", str(WORDS)]), 130)
        self.assertEqual(told.getvalue(), "")

    def test_a_command_without_a_module(self) -> None:
        with contextlib.redirect_stderr(io.StringIO()) as told, self.assertRaises(SystemExit) as end:
            main(["debug"])
        self.assertEqual(end.exception.code, 2)
        self.assertTrue(told.getvalue().endswith("the following arguments are required: MODULE\n"), told.getvalue())


class Files(unittest.TestCase):
    """A file is written whole, or stays as it was."""

    def setUp(self) -> None:
        self.folder = Path(self.enterContext(tempfile.TemporaryDirectory()))
        self.file = self.folder / "file"

    def test_modes(self) -> None:
        """A new file has what the mask leaves, and one that takes the place of another the other's."""
        self.addCleanup(os.umask, os.umask(0o027))
        write_whole(self.file, b"one")
        self.assertEqual(stat.S_IMODE(self.file.stat().st_mode), 0o640)
        self.file.chmod(0o755)
        write_whole(self.file, b"two")
        self.assertEqual(stat.S_IMODE(self.file.stat().st_mode), 0o755)
        self.assertEqual((self.file.read_bytes(), list(self.folder.iterdir())), (b"two", [self.file]))

    def test_a_link(self) -> None:
        """It stays, and what it names is written."""
        link = self.folder / "link"
        link.symlink_to("file")
        for data in (b"one", b"two"):
            write_whole(link, data)
            self.assertEqual((os.readlink(link), self.file.read_bytes()), ("file", data))

    def test_what_is_no_regular_file(self) -> None:
        """A pipe, and standard output, which is a file that others have open."""
        os.mkfifo(self.file)
        reader = os.open(self.file, os.O_RDONLY | os.O_NONBLOCK)
        self.addCleanup(os.close, reader)
        write_whole(self.file, b"data")
        self.assertEqual((os.read(reader, 10), stat.S_ISFIFO(self.file.stat().st_mode)), (b"data", True))
        script = "from pathlib import Path; from feulgama.files import write_whole; " \
                 "write_whole(Path('/dev/stdout'), b'data')"
        with open(self.folder / "out", "wb") as out:
            subprocess.run([sys.executable, "-c", script], cwd=CLIENT, check=True, stdout=out)
            self.assertEqual(os.fstat(out.fileno()).st_size, 4)

    def test_one_that_may_not_be_written(self) -> None:
        for name, kind in (("none/file", FileNotFoundError), (".", IsADirectoryError)):
            with self.assertRaises(kind) as found:
                write_whole(self.folder / name, b"data")
            self.assertEqual(found.exception.filename, str(self.folder / name))

    def test_a_page_without_a_folder(self) -> None:
        """It is told before the run."""
        with mock.patch("feulgama.cli.open_debugger", side_effect=AssertionError), \
                contextlib.redirect_stderr(io.StringIO()) as told:
            self.assertEqual(main(["--shim", SHIM, "timeline", "-o", str(self.folder / "none/page"), str(WORDS)]), 1)
        self.assertEqual(told.getvalue(), f"feulgama: there is no folder {self.folder}/none for the page\n")

    def test_one_that_is_broken_off(self) -> None:
        """By Ctrl-C."""
        self.file.write_bytes(b"before")
        with mock.patch("os.replace", side_effect=KeyboardInterrupt), self.assertRaises(KeyboardInterrupt):
            write_whole(self.file, b"after")
        self.assertEqual((self.file.read_bytes(), list(self.folder.iterdir())), (b"before", [self.file]))
