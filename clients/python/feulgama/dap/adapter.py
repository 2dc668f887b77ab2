"""The adapter: reads an editor's messages on standard input, and answers on standard output."""
from __future__ import annotations

import contextlib
import sys
import threading
from pathlib import Path
from typing import BinaryIO

from feulgama.dap.inbox import Inbox
from feulgama.dap.session import Session, opener_of
from feulgama.dap.wire import BadMessageError, Writer, read_message
from feulgama.debug.debugger import Debugger
from feulgama.opening import module_bytes, open_debugger
from feulgama.shim import Shim


def read_all(stream: BinaryIO, inbox: Inbox) -> None:
    """Hands each message on, up to a `disconnect`. The last is None, or what is wrong with the stream, whatever ends this: the
    adapter waits for it."""
    last: BadMessageError | None = None
    try:
        while (message := read_message(stream)) is not None:
            inbox.put(message)
            if message.get("command") == "disconnect":
                return
    except BadMessageError as error:
        last = error
    finally:
        inbox.put(last)


def serve(shim_file: str | None) -> int:
    """Answers one editor to the end of its session. Raises BadMessageError if what it sends is no message."""
    with contextlib.ExitStack() as shims:
        def open_file(path: Path, args: list[str], env: dict[str, str], memory: int | None) -> Debugger:
            data = module_bytes(path, shim_file)
            debugger = open_debugger(shims.enter_context(Shim(shim_file, workers=1)), path, data, args, env, memory)
            shims.callback(debugger.timeline.close)
            return debugger

        writer = Writer(sys.stdout.buffer)
        session = Session(writer, opener_of(open_file))
        threading.Thread(target=read_all, args=(sys.stdin.buffer, session.inbox)).start()
        while not session.is_over and (message := session.inbox.get()) is not None:
            if isinstance(message, BadMessageError):
                raise BadMessageError(f"{message}; this command speaks the Debug Adapter Protocol, and an editor starts it")
            if message.get("type") == "request":
                session.answer(message)
    return 0
