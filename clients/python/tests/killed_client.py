#!/usr/bin/env python3
"""A client that is killed: it keeps a shim busy with tasks that run for ever, for which it waits now and then.

    killed_client.py PROGRAM threads|asyncio
"""
import asyncio
import itertools
import sys
import threading
from pathlib import Path

sys.path.insert(0, str(Path(__file__).resolve().parents[1]))

import feulgama  # noqa: E402
from tests.support import FOREVER_BYTES  # noqa: E402


def by_threads(program: str) -> None:
    shim = feulgama.Shim(program, workers=2)
    digest = shim.ensure(FOREVER_BYTES)
    for number in itertools.count():
        task = shim.create(feulgama.Config(digest)).id
        shim.start(task)
        if number < 3:
            threading.Thread(target=shim.wait, args=(task,), daemon=True).start()
            continue
        shim.kill(task)
        shim.wait(task)
        shim.delete(task)


async def by_asyncio(program: str) -> None:
    async with feulgama.AsyncShim(program, workers=2) as shim:
        waiting = [asyncio.create_task(shim.run(FOREVER_BYTES)) for _ in range(3)]
        while True:
            with_time = asyncio.create_task(shim.run(FOREVER_BYTES, timeout=0.01))
            await asyncio.wait([with_time, *waiting], return_when=asyncio.FIRST_COMPLETED)


if __name__ == "__main__":
    if sys.argv[2] == "threads":
        by_threads(sys.argv[1])
    else:
        asyncio.run(by_asyncio(sys.argv[1]))
