"""How a command of tools/ is stopped: by a signal, or because nobody reads what it prints."""
from __future__ import annotations

import contextlib
import os
import signal
import subprocess
from collections.abc import Iterator
from pathlib import Path
from typing import IO

# The signals that stop a command.
STOPS = (signal.SIGINT, signal.SIGTERM, signal.SIGHUP)


def stop(_signal: int, _frame: object) -> None:
    raise KeyboardInterrupt


def stop_by_signals() -> None:
    """Lets each signal that stops a command raise KeyboardInterrupt, but for those that are ignored, as under nohup."""
    for number in STOPS:
        if signal.getsignal(number) is not signal.SIG_IGN:
            signal.signal(number, stop)


@contextlib.contextmanager
def uninterrupted() -> Iterator[None]:
    """Lets a signal that stops the command wait, so that no process is begun which is not known."""
    held: list[int] = []
    before = {number: handler for number in STOPS if (handler := signal.getsignal(number)) is not signal.SIG_IGN}
    for number in before:
        signal.signal(number, lambda number, _frame: held.append(number))
    try:
        yield
    finally:
        for number, handler in before.items():
            signal.signal(number, handler)
    if held:
        raise KeyboardInterrupt


@contextlib.contextmanager
def begun(command: list[str], folder: Path, printed: IO[bytes], **variables: str) -> Iterator[subprocess.Popen[bytes]]:
    """A process that prints into a file. It is ended with the block, however that ends: also if a signal came while it was
    begun."""
    process: subprocess.Popen[bytes] | None = None
    try:
        with uninterrupted():
            process = subprocess.Popen(command, cwd=folder, env={**os.environ, **variables}, stdin=subprocess.DEVNULL,
                                       stdout=printed, stderr=subprocess.STDOUT)
        yield process
    finally:
        if process is not None:
            process.terminate()
            process.wait()


def status_of(command: list[str], folder: Path, printed: IO[bytes]) -> int:
    """The status of a command that prints into a file. If a signal stops this one, the other is ended first."""
    with begun(command, folder, printed) as process:
        return process.wait()


def end_with_reader() -> None:
    """Lets the command end, without a word, once nobody reads what it prints, as after `| head`."""
    signal.signal(signal.SIGPIPE, signal.SIG_DFL)
