"""The answers of the calls that the shim does not have, as docs/TOOLCHAINS.md says them."""
from __future__ import annotations

import struct
import unittest
from dataclasses import dataclass

import feulgama
from feulgama.lowering import lower
from feulgama.lowering.library import library
from feulgama.lowering.lower import CALLS
from feulgama.wasm import writer as w
from tests import written_modules as m
from tests.support import SHIM
from tests.written_modules import Written

SUCCESS, BADF, FAULT, INVAL, NOTSUP, SPIPE = 0, 8, 21, 28, 58, 70
BEGINNING = 946_684_800 * 10**9  # 2000-01-01T00:00:00Z
I32, I64 = 0x7F, 0x7E
TYPES = {"i": I32, "l": I64}


@dataclass(frozen=True, slots=True)
class Call:
    """A call, its operands with their types (`i` or `l`), and what it answers."""
    name: str
    types: str
    operands: tuple[int, ...]
    answer: int


# Calls that answer the same whatever they are asked.
ALWAYS = [Call(name, types, (3,) + (0,) * (len(types) - 1), BADF) for name, types in (
    ("fd_advise", "illi"), ("fd_allocate", "ill"), ("fd_datasync", "i"), ("fd_fdstat_set_rights", "ill"),
    ("fd_filestat_set_size", "il"), ("fd_filestat_set_times", "illi"), ("fd_pread", "iiili"), ("fd_prestat_get", "ii"),
    ("fd_prestat_dir_name", "iii"), ("fd_pwrite", "iiili"), ("fd_readdir", "iiili"), ("fd_renumber", "ii"), ("fd_sync", "i"),
    ("path_create_directory", "iii"), ("path_filestat_get", "iiiii"), ("path_filestat_set_times", "iiiilli"),
    ("path_link", "iiiiiii"), ("path_open", "iiiiillii"), ("path_readlink", "iiiiii"),
    ("path_remove_directory", "iii"), ("path_rename", "iiiiii"), ("path_symlink", "iiiii"), ("path_unlink_file", "iii"),
    ("sock_accept", "iii"), ("sock_recv", "iiiiii"), ("sock_send", "iiiii"), ("sock_shutdown", "ii"))]
ALWAYS.append(Call("proc_raise", "i", (6,), NOTSUP))
LATE = 65536 - 7  # eight bytes from here on are not inside memory
ASKED = [
    *(Call("fd_close", "i", (fd,), SUCCESS if 0 <= fd < 3 else BADF) for fd in (0, 1, 2, 3, -1)),
    *(Call("fd_seek", "ilii", (fd, 0, 0, 0), SPIPE if fd < 3 else BADF) for fd in (0, 2, 3)),
    *(Call("fd_tell", "ii", (fd, 0), SPIPE if fd < 3 else BADF) for fd in (0, 2, 3)),
    *(Call("fd_fdstat_set_flags", "ii", (fd, 0), NOTSUP if fd < 3 else BADF) for fd in (0, 2, 3)),
    Call("fd_read", "iiii", (0, 0, 0, 65533), FAULT), Call("fd_read", "iiii", (1, 0, 0, 0), BADF),
    Call("fd_fdstat_get", "ii", (0, 65513), FAULT), Call("fd_fdstat_get", "ii", (3, 65513), BADF),
    Call("fd_filestat_get", "ii", (0, 65473), FAULT), Call("fd_filestat_get", "ii", (3, 0), BADF),
    Call("clock_time_get", "ili", (4, 0, 0), INVAL), Call("clock_time_get", "ili", (0, 0, LATE), FAULT),
    Call("clock_res_get", "ii", (4, 0), INVAL), Call("clock_res_get", "ii", (0, LATE), FAULT),
    Call("random_get", "ii", (65530, 7), FAULT), Call("random_get", "ii", (0, -1), FAULT),
    Call("random_get", "ii", (65536, 0), SUCCESS),
    Call("poll_oneoff", "iiii", (0, 0, 0, 0), INVAL), Call("poll_oneoff", "iiii", (65489, 0, 1, 0), FAULT),
    Call("poll_oneoff", "iiii", (0, 65505, 1, 0), FAULT), Call("poll_oneoff", "iiii", (0, 0, 1, 65533), FAULT),
    Call("poll_oneoff", "iiii", (0, 0, 0x10000000, 0), FAULT),
]


def constants(call: Call) -> bytes:
    return b"".join(w.i32(number) if kind == "i" else w.i64(number) for kind, number in zip(call.types, call.operands))


def written(calls: list[Call], begin: int, size: int, data: bytes = b"") -> bytes:
    """What a module writes that makes these calls: their answers, and bytes of memory afterwards."""
    names = sorted({(call.name, call.types) for call in calls})
    types = [b"\x60" + w.sized(bytes(TYPES[kind] for kind in one)) + b"\x01\x7f" for _, one in names]
    imports = [m.WRITER, *(m.imported(name, 2 + at) for at, (name, _) in enumerate(names))]
    main = b""
    for number, call in enumerate(calls):
        main += constants(call) + w.call(1 + names.index((call.name, call.types))) + m.store_result(60_000 + number)
    main += m.show(60_000, len(calls)) + m.show(begin, size)
    module = Written(main, imports, types, [m.active(1000, data)], globals_=[m.RESULT]).bytes()
    with feulgama.Shim(SHIM) as shim:
        return shim.run(lower(module).data).stdout


def subscription(word: int, kind: int, number: int, timeout: int = 0, flags: int = 0) -> bytes:
    """A subscription of a clock, or to a descriptor."""
    return struct.pack("<QQQQQQ", word, kind, number, timeout, 0, flags)


def event(word: int, error: int, kind: int, flags: int = 0) -> bytes:
    return struct.pack("<QHBxxxxxQQ", word, error, kind, 0, flags)


class Answers(unittest.TestCase):
    def test_all_are_asked(self) -> None:
        """Each call of preview1 is one of the shim's, or is asked here."""
        asked = {call.name for call in ALWAYS + ASKED}
        self.assertEqual(asked, {name for name in library().module.exports if library().answer(name) is not None})
        self.assertEqual(len(asked | CALLS), 46)

    def test_errors(self) -> None:
        for calls in (ALWAYS, ASKED):
            said = written(calls, 0, 16)
            self.assertEqual(dict(zip(calls, said)), {call: call.answer for call in calls})
            self.assertEqual(said[len(calls):], bytes(16))

    def test_streams(self) -> None:
        """Character devices: the first can be read, the others written."""
        calls = [Call("fd_fdstat_get", "ii", (fd, 1000 + 24 * fd), SUCCESS) for fd in range(3)]
        said = written(calls, 1000, 72, b"\xff" * 72)
        self.assertEqual(said, bytes(3) + b"".join(struct.pack("<QQQ", 2, rights, 0) for rights in (2, 64, 64)))
        said = written([Call("fd_filestat_get", "ii", (1, 1000), SUCCESS)], 1000, 72, b"\xff" * 72)
        self.assertEqual(said, bytes(1) + struct.pack("<QQQQQQQQ", 0, 0, 2, 0, 0, 0, 0, 0) + b"\xff" * 8)

    def test_the_end_of_input(self) -> None:
        self.assertEqual(written([Call("fd_read", "iiii", (0, 0, 0, 1001), SUCCESS)], 1000, 6, b"\xff" * 6),
                         b"\0\xff\0\0\0\0\xff")

    def test_clocks_count_calls(self) -> None:
        """All clocks go together. That of the wall begins in 2000, and the others at 0."""
        calls = [Call("clock_time_get", "ili", (clock, 0, 1000 + 8 * clock), SUCCESS) for clock in range(4)]
        calls += [Call("clock_res_get", "ii", (0, 1032), SUCCESS)]
        times = [BEGINNING, 1000, 2000, 3000]
        self.assertEqual(written(calls, 1000, 40), bytes(5) + struct.pack("<QQQQQ", *times, 1000))

    def test_random_numbers(self) -> None:
        """They go on from call to call, from the seed of the page."""
        calls = [Call("random_get", "ii", (1000 + 4 * at, 4), SUCCESS) for at in range(3)]
        self.assertEqual(written(calls, 1000, 13), bytes(3) + m.xorshift(0x9E3779B97F4A7C15, 12) + b"\0")

    def after_poll(self, subscriptions: list[bytes]) -> tuple[int, list[bytes], int]:
        """The answer of a poll, its events, and the wall clock afterwards."""
        count = len(subscriptions)
        calls = [Call("poll_oneoff", "iiii", (1000, 2000, count, 1992), SUCCESS),
                 Call("clock_time_get", "ili", (0, 0, 1984), SUCCESS)]
        said = written(calls, 1984, 16 + 32 * count, b"".join(subscriptions).ljust(1200, b"\xff"))
        clock, number = struct.unpack_from("<QI", said, 2)
        return said[0], [said[18 + 32 * at:50 + 32 * at] for at in range(min(number, count))], clock

    def test_poll(self) -> None:
        """Streams are ready at once. Without one the first time comes, and the clock shows it."""
        for subscriptions, events, passed in (
                ([subscription(7, 0, 1, 5000)], [event(7, 0, 0)], 5000),
                ([subscription(7, 0, 0, BEGINNING + 9000, 1)], [event(7, 0, 0)], 9000),
                ([subscription(7, 0, 0, 5, 1)], [event(7, 0, 0)], 0),
                ([subscription(7, 0, 1, 9000, 1)], [event(7, 0, 0)], 9000),
                ([subscription(7, 0, 0, BEGINNING + 900, 1), subscription(8, 0, 1, 300, 1), subscription(9, 0, 2, 700)],
                 [event(8, 0, 0)], 300),
                ([subscription(7, 0, 0, 900), subscription(8, 0, 0, 300), subscription(9, 0, 0, 300)],
                 [event(8, 0, 0), event(9, 0, 0)], 300),
                ([subscription(7, 0, 0, 900), subscription(8, 1, 0), subscription(9, 2, 1), subscription(6, 2, 0)],
                 [event(8, 0, 1, 1), event(9, 0, 2), event(6, BADF, 2)], 0),
                ([subscription(7, 0, 0, 2**64 - 1)], [event(7, 0, 0)], 2**64 - 1 - BEGINNING),
                ([subscription(7, 0, 1, 2**64 - 1, 1)], [event(7, 0, 0)], 2**64 - 1 - BEGINNING)):
            self.assertEqual(self.after_poll(subscriptions), (SUCCESS, events, BEGINNING + passed))
        self.assertEqual(self.after_poll([subscription(7, 3, 0)])[0], INVAL)
