"""A shim's process and the pipes of its callers: lines go in, and as many lines come out."""
from __future__ import annotations

import contextlib
import os
import select
import signal
import subprocess
import threading
import time
import weakref
from collections.abc import Sequence
from typing import IO

from feulgama.callers import pipes
from feulgama.errors import BadReplyError, NoShimError, ShimEndedError, TimedOutError, ended
from feulgama.said import Line, Said
from feulgama.waits import Wait, Waits

CHUNK = 1 << 18
PATIENCE, LAST_WORDS = 5.0, 0.2


class Pipe:
    """A running `wasm-shim serve`, of the words that start it, with a caller that controls it and so many that wait. It
    has a session of its own, so that a Ctrl-C in a terminal does not reach it. If the words make it the process of another
    user, that is `user`. `asked` is how many lines it was sent; `said` is what it writes to standard error, which a thread
    reads, so that the shim never waits for a reader. Once `is_closed` is set it is sent no line more. One thread at a time may
    exchange lines, or close it; all may wait."""

    def __init__(self, words: list[str], waiters: int, user: int | None = None) -> None:
        made = pipes(waiters, user)
        try:
            self._process = subprocess.Popen([*words, *made.words()], bufsize=0, start_new_session=True, pass_fds=made.given,
                                             stdin=subprocess.DEVNULL, stdout=subprocess.DEVNULL, stderr=subprocess.PIPE)
        except OSError as error:
            made.close()
            raise NoShimError(f"{words[0]}: {error.strerror}") from error
        except BaseException:
            made.close()
            raise
        made.close_given()
        self._control = made.ends[0]
        self._in, self._out = self._control.lines, self._control.replies
        self._streams = os.fdopen(self._in, "wb", 0), os.fdopen(self._out, "rb", 0)
        self._waits = Waits(made.ends[1:])
        # No thread holds this object, so that it can be given up without a `close`.
        self._given_up = weakref.finalize(self, give_up, self._streams, self._waits)
        self._given_up.atexit = False
        self.said = Said()
        self._listener = threading.Thread(target=self.said.listen, args=(self._process.stderr,), daemon=True)
        self._listener.start()
        self._ending = threading.Lock()
        self._ended: ShimEndedError | None = None
        self._unanswered = self._controlled = 0
        self.is_closed = False

    @property
    def asked(self) -> int:
        """How many lines it was sent."""
        return self._controlled + self._waits.asked

    def line(self, back: int = 0) -> Line:
        """The last line that controls it, or one so many before."""
        return Line(self._control.name, self._controlled - back)

    @property
    def pid(self) -> int:
        """The number of the process."""
        return self._process.pid

    def exchange(self, line: bytes) -> bytes:
        """The reply to one line, without its line feed."""
        self._begin(1)
        try:
            sent = os.write(self._in, line)
            if sent < len(line):
                return self._pump(line[sent:], 1)[:-1]
            found = os.read(self._out, CHUNK)
            while found[-1:] != b"\n":
                more = os.read(self._out, CHUNK)
                if not more:
                    raise self.end("the shim closed its output")
                found += more
        except BlockingIOError:
            return self._pump(line, 1)[:-1]
        except OSError as error:
            raise self.end("the shim does not read") from error
        if found.find(b"\n") != len(found) - 1:
            raise self.refuse(found)
        self._unanswered = 0
        return found[:-1]

    def exchange_many(self, lines: bytes, count: int) -> bytes:
        """The replies to this many lines, each with its line feed. Lines are written while replies are read."""
        self._begin(count)
        return self._pump(lines, count)

    def _begin(self, count: int) -> None:
        if self._ended is not None:
            raise self._ended
        if self.is_closed:
            raise ShimEndedError("the shim was closed")
        if self._unanswered:
            raise self.end("an earlier request was broken off")
        self._unanswered = count
        self._controlled += count

    def _pump(self, lines: bytes, count: int) -> bytes:
        poll = select.poll()
        poll.register(self._out, select.POLLIN)
        if lines:
            poll.register(self._in, select.POLLOUT)
        left, found, missing = memoryview(lines), [], count
        while missing > 0:
            for descriptor, _ in poll.poll():
                if descriptor == self._in:
                    left = self._write(left)
                    if not left:
                        poll.unregister(self._in)
                else:
                    chunk = os.read(self._out, CHUNK)
                    if not chunk:
                        raise self.end("the shim closed its output")
                    missing -= chunk.count(b"\n")
                    found.append(chunk)
        if missing < 0 or (found and found[-1][-1:] != b"\n"):
            raise self.refuse(found[-1])
        self._unanswered = 0
        return b"".join(found)

    def _write(self, left: memoryview) -> memoryview:
        try:
            return left[os.write(self._in, left[:CHUNK]):]
        except BlockingIOError:
            return left
        except OSError as error:
            raise self.end("the shim does not read") from error

    def refuse(self, line: bytes) -> BadReplyError:
        """Ends the shim because of a line that is no reply."""
        self.end("the shim wrote a line that is no reply")
        return BadReplyError(line)

    def end(self, why: str) -> ShimEndedError:
        """Ends the process, if it has not ended, and says how it did."""
        with self._ending:
            if self._ended is None:
                status = self._process.poll()
                if status is None:
                    status = self._stop()
                self._listener.join(LAST_WORDS)
                self._ended = ended(why, status, self.said.other())
            return self._ended

    # Waits.

    def ask_wait(self, task: str, line: bytes, seconds: float) -> Wait | None:
        """The wait for a task, by a caller of its own; None if none is free within so many seconds."""
        if self._ended is None:
            with contextlib.suppress(EOFError):
                return self._waits.ask(task, line, seconds)
        raise self.end("the shim has ended")

    def answer_to(self, wait: Wait, timeout: float | None) -> bytes:
        """The line that answers a wait. Raises TimedOutError if it does not come in time."""
        try:
            return wait.reply.result(timeout)
        except TimeoutError as error:
            raise TimedOutError("the time that was given for a wait is over") from error
        except EOFError as error:
            raise self.end("the shim has ended") from error

    def changed(self, line: bytes) -> None:
        """Takes note of a line that has changed a task: the next wait for that task is a new one, since those that were sent
        before this line was answered may tell what was true before it."""
        self._waits.forget(line)

    def _stop(self) -> int | None:
        """Waits a moment for a process that is about to end, and then kills it with what it has started."""
        deadline = time.monotonic() + 0.2
        while time.monotonic() < deadline:
            status = self._process.poll()
            if status is not None:
                return status
            time.sleep(0.005)
        self.kill()
        try:
            return self._process.wait(PATIENCE)
        except subprocess.TimeoutExpired:
            return None

    def kill(self) -> None:
        """Kills the process and what it has started; an exchange of another thread finds that it has ended."""
        if self._process.poll() is None:
            with contextlib.suppress(ProcessLookupError):
                os.killpg(self._process.pid, signal.SIGKILL)

    def close(self) -> None:
        """Closes its input, and waits until it has ended."""
        self.is_closed = True
        if self._streams[0].closed:
            return
        self._streams[0].close()
        if self._ended is None and not self._unanswered:
            with contextlib.suppress(subprocess.TimeoutExpired):
                self._process.wait(PATIENCE)
        self.end("the shim was closed")
        self._waits.close(LAST_WORDS)
        self._streams[1].close()
        self._given_up.detach()


def give_up(streams: Sequence[IO[bytes]], waits: Waits) -> None:
    """Closes the pipes of a shim that nobody can close any more, which ends it."""
    for stream in streams:
        with contextlib.suppress(OSError):
            stream.close()
    waits.give_up()
