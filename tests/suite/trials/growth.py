"""How much processor time hostile inputs take, at sizes that double: it may grow as the input does, and no faster."""
from __future__ import annotations

import json
import math
import sys
import time
from dataclasses import dataclass
from pathlib import Path

from suite.trials import shapes
from suite.trials.modules import digest_of
from suite.trials.program import Report, Session, config_of, line_of, number_of

# More than these is flagged: the growth of the time for a byte from the least size to one that is four times as
# large, which is 1 if the time is linear and 4 if it is quadratic; and seconds for 262,144 bytes.
MOST_GROWTH, MOST_SECONDS, BYTES = 2.5, 0.050, 262_144
# Less time than this is not looked at for its growth.
LEAST_SECONDS = 0.001
# A trial is repeated up to this number of times, or until it took so long together; the least time counts.
REPEATS, ENOUGH_SECONDS, TOO_LONG = 9, 0.5, 5.0
# What else the machine does may take the processor's caches from the program for a while, which costs it processor time. So
# a shape that is too slow is timed again after these seconds, and its least times count: one that is slow by itself stays so.
PAUSES = (5, 20)
# A block of 32 MiB and more is asked of the system anew each time, page by page. With these the C library keeps what
# it has had, so that what grows with them too is the program's own work.
KEEPS_MEMORY = {"MALLOC_MMAP_THRESHOLD_": str(1 << 30), "MALLOC_TRIM_THRESHOLD_": str(1 << 30)}
# What is said of a shape: over the limit; growing too fast; and so only where the system gives new memory.
SLOW, GROWS, MAPS = " SLOW", " GROWS", " MAPS"
# The bytes of the module that the second reading reads for the number that all sizes of a shape are answered.
SMALL = 4_096


@dataclass
class Timing:
    """Of an input: its bytes, the least processor time, the reply, and the most memory that the program had."""

    size: int
    seconds: float
    reply: bytes | None
    mib: float


@dataclass
class Trial:
    """Lines before the one that is timed, that one, lines after it, and the bytes by which its time is told."""

    before: list[bytes]
    line: bytes
    after: list[bytes]
    size: int


def of_module(data: bytes) -> Trial:
    digest = digest_of(data)
    return Trial([line_of(op="put", hex=data.hex())], line_of(op="create", id="a", config=config_of(digest)),
                 [line_of(op="kill", id="a", signal=9), line_of(op="delete", id="a"), line_of(op="gc")], len(data))


def of_module_again(data: bytes) -> Trial:
    """A second create over a module, which has been decoded by then."""
    digest = digest_of(data)
    first = of_module(data)
    before = [*first.before, line_of(op="create", id="b", config=config_of(digest))]
    after = [line_of(op="kill", id="b", signal=9), line_of(op="delete", id="b"), *first.after]
    return Trial(before, first.line, after, len(data))


def of_put(data: bytes) -> Trial:
    return Trial([], line_of(op="put", hex=data.hex()), [line_of(op="gc")], len(data))


def of_text(text: bytes) -> Trial:
    line = json.dumps({"op": "put_text", "text": text.decode()}).encode()
    return Trial([], line, [line_of(op="gc")], len(text))


def of_line(line: bytes) -> Trial:
    return Trial([], line, [line_of(op="gc")], len(line))


def timed(program: Path, trial: Trial, environment: dict[str, str] | None = None) -> Timing:
    """The least processor time of the timed line, over some repeats."""
    session, best, spent, reply = Session(program, environment=environment), float("inf"), 0.0, None
    for _ in range(REPEATS):
        if len(session.ask_all(trial.before)) < len(trial.before):
            break
        begun = session.used()
        reply = session.ask(trial.line)
        if reply is None:
            break
        seconds = session.used() - begun
        best, spent = min(best, seconds), spent + seconds
        if len(session.ask_all(trial.after)) < len(trial.after) or spent > ENOUGH_SECONDS:
            break
    mib = 0.0 if reply is None else session.resident("VmHWM")
    session.close()
    return Timing(trial.size, best, reply, mib)


def try_shape(program: Path, report: Report, name: str, trials: list[Trial], wanted: list[int]) -> None:
    """Times a shape at its sizes, and says what is wrong with its replies, its times and their growth."""
    timings: list[Timing] = []
    for trial, number in zip(trials, wanted):
        timing = timed(program, trial)
        report.add("inputs timed")
        if timing.reply is None:
            report.differ(f"{name}: no reply", trial.line, b"", None)
            return
        if number_of(timing.reply) != number:
            found = number_of(timing.reply)
            report.differ(f"{name}: number {found} in place of {number}", trial.line, b"", timing.reply)
        timings.append(timing)
        if timing.seconds > TOO_LONG:
            break
    for pause in PAUSES:
        if SLOW not in flags_of(timings, growths_of(timings)):
            break
        time.sleep(pause)
        timings = [min(timing, timed(program, trial), key=lambda it: it.seconds) for timing, trial in zip(timings, trials)]
    growths = growths_of(timings)
    told = "  ".join(f"{timing.size:>9,} {timing.seconds * 1e3:>9.2f} {timing.seconds * 1e9 / timing.size:>8.1f}"
                     for timing in timings)
    flags = flags_of(timings, growths)
    if flags == GROWS:
        again = [timed(program, trial, KEEPS_MEMORY) for trial in trials[:len(timings)]]
        flags = flags_of(again, growths_of(again)) or MAPS
    print(f"{name:<52} {told}  {' '.join(f'{growth:.2f}' for growth in growths)} {timings[-1].mib:>6.1f}{flags}")
    sys.stdout.flush()
    if flags == MAPS:
        report.add("shapes whose time grows by new memory of the system alone")
    elif flags:
        last = timings[-1]
        report.fault(f"{name}:{flags.lower()}: {last.seconds * 1e3:.1f} ms for {last.size:,} bytes, growth "
                     + ", ".join(f"{growth:.2f}" for growth in growths))


def growths_of(timings: list[Timing]) -> list[float]:
    """From each size to the next, how many times the time for a byte is there."""
    return [second.seconds * first.size / first.seconds / second.size for first, second in zip(timings, timings[1:])]


def flags_of(timings: list[Timing], growths: list[float]) -> str:
    """What is wrong with the time of the last size, and with the growth up to it; nothing, if nothing is."""
    last = timings[-1]
    is_slow = last.seconds > MOST_SECONDS * max(1, last.size / BYTES)
    # With two sizes alone, since a third took too long, the growth is that of one doubling.
    most = MOST_GROWTH if len(timings) == 3 else MOST_GROWTH**0.5
    is_fast_growing = len(timings) > 1 and math.prod(growths) > most and last.seconds > LEAST_SECONDS
    return SLOW * is_slow + GROWS * is_fast_growing


def sizes(most: int) -> list[int]:
    return [most >> by for by in (2, 1, 0)]


def try_modules(program: Path, report: Report) -> None:
    for shape in shapes.MODULES:
        number = shapes.number_of_module(shape.make(SMALL))
        if number != shape.number:
            report.fault(f"{shape.name}: the second reading has {number}")
        made = [shape.make(size) for size in sizes(shapes.MODULE_BYTES)]
        try_shape(program, report, shape.name, [of_module(data) for data in made], [number] * 3)
        if number == 0 and ("segment" in shape.name or shape.name == "globals"):
            again = f"{shape.name}, a second create"
            try_shape(program, report, again, [of_module_again(data) for data in made], [0] * 3)
    try_shape(program, report, "put of zeros", [of_put(bytes(size)) for size in sizes(shapes.MODULE_BYTES)], [0] * 3)


def try_texts(program: Path, report: Report) -> None:
    """A text that is taken has half of a line, so that its module is within the limit of bytes."""
    for shape in shapes.TEXTS:
        most = shapes.LINE_BYTES // 2 - 10_000 if shape.number == 0 else shapes.LINE_BYTES - 10_000
        made = [shape.make(size) for size in sizes(most)]
        try_shape(program, report, shape.name, [of_text(text) for text in made], [shape.number or 0] * 3)


def try_lines(program: Path, report: Report) -> None:
    for shape in shapes.LINES:
        made = [shape.make(size) for size in sizes(shapes.LINE_BYTES - 200)]
        wanted = [shapes.number_of_line(line) for line in made]
        try_shape(program, report, shape.name, [of_line(line) for line in made], wanted)


def try_growth(program: Path, report: Report) -> None:
    """Prints, for each shape, bytes, milliseconds and nanoseconds a byte at each size, then the growth of the
    latter from size to size, and the most memory in MiB that the program had. A shape that grows too fast is timed again
    with an allocator that keeps its memory: MAPS is said of it, and no fault told, if it does not grow there."""
    print("shape; for each size: bytes, milliseconds, nanoseconds a byte; growth of the last from size to size; MiB")
    try_modules(program, report)
    try_texts(program, report)
    try_lines(program, report)
