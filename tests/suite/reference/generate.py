"""Random modules, configs and lines: mostly right, then bent a little."""
from __future__ import annotations

import hashlib
import json
import random
from collections.abc import Callable
from typing import Any

from suite.reference.wasm import FIXED, I32, I64, LOADS, STORES, FuncType

VALUE_TYPES = (I32, I64)
EDGES = (0, 1, 7, -1, 63, 64, -64, -65, 2**31 - 1, -2**31)


def leb(number: int, is_signed: bool = False, most: int = 5) -> bytes:
    """A spelling of a number: the shortest one, or at times one with up to as many bytes as it may have."""
    groups = [number & 0x7F]
    number >>= 7
    while number != (-1 if is_signed and groups[-1] & 0x40 else 0):
        groups.append(number & 0x7F)
        number >>= 7
    fill = 0x7F if is_signed and groups[-1] & 0x40 else 0
    if random.random() < 0.15:
        groups += [fill] * random.randint(0, max(0, most - len(groups)))
    return bytes(group | 0x80 for group in groups[:-1]) + bytes(groups[-1:])


def vector(items: list[bytes]) -> bytes:
    return leb(len(items)) + b"".join(items)


def sized(part: bytes) -> bytes:
    return leb(len(part)) + part


def func_types() -> list[FuncType]:
    found: list[FuncType] = [((I32,), ()), ((), ())]
    for _ in range(random.choice([0, 0, 1, 2])):
        most = random.choice([1, 1, 2, 3])
        takes, gives = (tuple(random.choice(VALUE_TYPES) for _ in range(random.randint(0, count))) for count in (3, most))
        found.append((takes, gives))
    if random.random() < 0.2:
        random.shuffle(found)
    return found


def imports(types: list[FuncType]) -> list[tuple[bytes, bytes, int]]:
    found = [(b"wasi_snapshot_preview1", b"proc_exit", types.index(((I32,), ())))] * random.choice([1, 1, 1, 2, 0])
    if random.random() < 0.15:
        module = random.choice([b"wasi_snapshot_preview1", b"env", "ä".encode()])
        found.append((module, random.choice([b"proc_exit", b"fd_write", b""]), random.randrange(len(types))))
    return found


def constant(kind: int) -> bytes:
    bits = 32 if kind == I32 else 64
    number = random.choice([*EDGES, random.randint(-2**(bits - 1), 2**(bits - 1) - 1)])
    opcode, most = (b"\x41", 5) if kind == I32 else (b"\x42", 10)
    return opcode + leb(number, is_signed=True, most=most)


class Shape:
    """What the instructions of a module may name: its types, the types of its functions, its globals, and whether it
    has a memory and a table."""

    def __init__(self, types: list[FuncType], functions: list[int],
                 imported: int) -> None:
        self.types, self.functions, self.imported = types, functions, imported
        self.globals = [(random.choice(VALUE_TYPES), random.randrange(2)) for _ in range(random.choice([0, 0, 1, 3]))]
        self.has_memory, self.has_table = random.random() < 0.6, random.random() < 0.3
        self.is_plain = random.random() < 0.4


class Body:
    """Random instructions, mostly well typed."""

    def __init__(self, shape: Shape, locals_: list[int], results: tuple[int, ...]) -> None:
        self.shape, self.locals, self.results = shape, locals_, results
        self.left = random.choice([0, 3, 8, 20])

    def sequence(self, params: tuple[int, ...], results: tuple[int, ...], labels: list[tuple[int, ...]]) -> bytes:
        stack, code = [*params], b""
        while self.left > 0 and random.random() < 0.9:
            self.left -= 1
            added, is_free = self.instruction(stack, labels)
            code += added
            if is_free and random.random() < 0.9:
                return code
        while stack and random.random() < 0.98 and tuple(stack) != tuple(results):
            stack.pop()
            code += b"\x1a"
        for kind in results[len(stack):]:
            code += constant(kind)
        return code

    def instruction(self, stack: list[int], labels: list[tuple[int, ...]]) -> tuple[bytes, bool]:
        """One instruction, and whether the operands are free after it."""
        choices: list[Callable[[list[int], list[tuple[int, ...]]], tuple[bytes, bool]]] = [
            self.constant, self.constant, self.drop, self.call]
        if not self.shape.is_plain:
            choices += [self.fixed] * 4 + [self.variable] * 3 + [self.memory] * 2
            choices += [self.block, self.block, self.branch, self.select, self.other]
        return random.choice(choices)(stack, labels)

    def takes(self, stack: list[int], kinds: tuple[int, ...]) -> bytes:
        """Takes operands of these types, or pushes constants for those that are not there."""
        code, there = b"", len(stack)
        while there and tuple(stack[len(stack) - there:]) != tuple(kinds[:there]):
            there -= 1
        there = min(there, len(kinds))
        del stack[len(stack) - there:]
        if random.random() < 0.99:
            code += b"".join(constant(kind) for kind in kinds[there:])
        return code

    def constant(self, stack: list[int], _labels: list[tuple[int, ...]]) -> tuple[bytes, bool]:
        stack.append(random.choice(VALUE_TYPES))
        return constant(stack[-1]), False

    def drop(self, stack: list[int], _labels: list[tuple[int, ...]]) -> tuple[bytes, bool]:
        if not stack and random.random() < 0.95:
            return b"", False
        del stack[-1:]
        return b"\x1a", False

    def select(self, stack: list[int], _labels: list[tuple[int, ...]]) -> tuple[bytes, bool]:
        kind = random.choice(VALUE_TYPES)
        code = self.takes(stack, (kind, kind, I32))
        stack.append(kind)
        return code + b"\x1b", False

    def fixed(self, stack: list[int], _labels: list[tuple[int, ...]]) -> tuple[bytes, bool]:
        opcode = random.choice(list(FIXED))
        takes, gives = FIXED[opcode]
        code = self.takes(stack, takes)
        stack += gives
        return code + bytes([opcode]), False

    def variable(self, stack: list[int], _labels: list[tuple[int, ...]]) -> tuple[bytes, bool]:
        opcode = random.randrange(0x20, 0x25)
        known = self.locals if opcode < 0x23 else [kind for kind, _ in self.shape.globals]
        if not known:
            return b"", False
        index = random.randrange(len(known))
        if opcode == 0x24 and self.shape.globals[index][1] == 0 and random.random() < 0.9:
            opcode = 0x23
        code = b"" if opcode in (0x20, 0x23) else self.takes(stack, (known[index],))
        if opcode in (0x20, 0x22, 0x23):
            stack.append(known[index])
        return code + bytes([opcode]) + leb(index if random.random() < 0.99 else len(known)), False

    def memory(self, stack: list[int], _labels: list[tuple[int, ...]]) -> tuple[bytes, bool]:
        if not self.shape.has_memory and random.random() < 0.98:
            return b"", False
        kind = random.random()
        if kind < 0.2:
            grows = random.random() < 0.5
            code = self.takes(stack, (I32,)) if grows else b""
            stack.append(I32)
            return code + (b"\x40" if grows else b"\x3f") + b"\0", False
        opcode = random.choice(list(LOADS if kind < 0.6 else STORES))
        value, count = (LOADS | STORES)[opcode]
        code = self.takes(stack, (I32,) if opcode in LOADS else (I32, value))
        if opcode in LOADS:
            stack.append(value)
        align = random.randrange(count.bit_length() + (random.random() < 0.02))
        return code + bytes([opcode]) + leb(align) + leb(random.choice([0, 1, 65_535, 2**32 - 1])), False

    def call(self, stack: list[int], _labels: list[tuple[int, ...]]) -> tuple[bytes, bool]:
        shape = self.shape
        if shape.has_table and not shape.is_plain and random.random() < 0.3:
            index = random.randrange(len(shape.types))
            params, results = shape.types[index]
            code = self.takes(stack, (*params, I32)) + b"\x11" + leb(index) + b"\0"
        else:
            most = shape.imported if shape.is_plain else len(shape.functions)
            if not most:
                return b"", False
            index = random.randrange(most + (random.random() < 0.02))
            params, results = shape.types[shape.functions[index]] if index < len(shape.functions) else ((), ())
            code = self.takes(stack, params) + b"\x10" + leb(index)
        stack += results
        return code, False

    def block(self, stack: list[int], labels: list[tuple[int, ...]]) -> tuple[bytes, bool]:
        opcode = random.choice([2, 3, 4])
        params, results, kind = self.block_type()
        code = self.takes(stack, (*params, I32) if opcode == 4 else params) + bytes([opcode]) + kind
        inside = [params if opcode == 3 else results, *labels]
        code += self.sequence(params, results, inside)
        if opcode == 4 and random.random() < (0.4 if params == results else 0.98):
            code += b"\x05" + self.sequence(params, results, inside)
        stack += results
        return code + b"\x0b", False

    def block_type(self) -> tuple[tuple[int, ...], tuple[int, ...], bytes]:
        """What a block takes and gives, and the bytes that say so."""
        if random.random() < 0.6:
            results = random.choice([(), (), (I32,), (I64,)])
            return (), results, bytes(results) or b"\x40"
        index = random.randrange(len(self.shape.types) + (random.random() < 0.02))
        params, results = self.shape.types[index] if index < len(self.shape.types) else ((), ())
        return params, results, leb(index, is_signed=True)

    def branch(self, stack: list[int], labels: list[tuple[int, ...]]) -> tuple[bytes, bool]:
        label = random.randrange(len(labels) + (random.random() < 0.02))
        types = labels[label] if label < len(labels) else ()
        kind = random.random()
        if kind < 0.4:
            code = self.takes(stack, (*types, I32)) + b"\x0d" + leb(label)
            stack += types
            return code, False
        if kind < 0.7:
            return self.takes(stack, types) + b"\x0c" + leb(label), True
        alike = [index for index, other in enumerate(labels) if other == types] or [label]
        others = [random.choice(alike) for _ in range(random.randint(0, 3))]
        return self.takes(stack, (*types, I32)) + b"\x0e" + vector([leb(other) for other in others]) + leb(label), True

    def other(self, stack: list[int], _labels: list[tuple[int, ...]]) -> tuple[bytes, bool]:
        kind = random.random()
        if kind < 0.5:
            return b"\x01", False
        if kind < 0.7:
            return b"\0", True
        return self.takes(stack, self.results) + b"\x0f", True


def func(shape: Shape, type_index: int) -> bytes:
    params, results = shape.types[type_index] if type_index < len(shape.types) else ((), ())
    counts = (0, 1, 2, 5, 1023, 1024) if random.random() < 0.1 else range(5)
    runs = [(random.choice(counts), random.choice(VALUE_TYPES)) for _ in range(random.randint(0, 2))]
    locals_ = [*params, *(kind for count, kind in runs for _ in range(count))]
    code = Body(shape, locals_, results).sequence((), results, [results])
    return vector([leb(count) + bytes([kind]) for count, kind in runs]) + code + b"\x0b"


def limits(most: int) -> bytes:
    least = random.choice([0, 1, 1, 2, most, most + 1] if random.random() < 0.3 else [0, 1, 2])
    if random.random() < 0.6:
        return b"\0" + leb(least)
    return b"\1" + leb(least) + leb(random.choice([least, least + 1, 65_536, 65_537, max(0, least - 1)]))


def offset() -> bytes:
    return b"\x41" + leb(random.choice([0, 0, 1, 65_535]), is_signed=True) + b"\x0b"


def segments(shape: Shape, functions: int) -> tuple[list[bytes], list[bytes]]:
    elements = [leb(0) + offset() + vector([leb(random.randrange(functions + (random.random() < 0.02)))
                                            for _ in range(random.randint(0, 2))])
                for _ in range(random.choice([0, 1, 2]) if shape.has_table else 0) if functions]
    data = [leb(0) + offset() + sized(random.randbytes(random.randint(0, 3)))
            for _ in range(random.choice([0, 1, 2]) if shape.has_memory else 0)]
    return elements, data


def custom() -> bytes:
    if random.random() >= 0.05:
        return b""
    name = random.choice([b"name", b"", *[b"a"] * 7, b"\xff"])
    return b"\0" + sized(sized(name) + random.randbytes(random.randint(0, 5)))


def sections() -> list[tuple[int, bytes]]:
    types = func_types()
    imported = imports(types)
    indices = [random.randrange(len(types) + (random.random() < 0.02)) if random.random() < 0.4
               else types.index(((), ())) for _ in range(random.choice([1, 1, 2, 3, 0]))]
    functions = [index for _, _, index in imported] + [min(index, len(types) - 1) for index in indices]
    shape = Shape(types, functions, len(imported))
    exports = []
    if random.random() < 0.9:
        exports.append((b"_start", 0, len(imported) + random.randrange(max(1, len(indices)))))
    if random.random() < 0.15:
        kind = random.choice([0, 0, 1, 2, 3])
        exports.append((random.choice([b"_start", b"x", b"\xff"]), kind, random.randrange(len(functions) + 1)))
    elements, data = segments(shape, len(functions))
    start = leb(random.randrange(len(functions) + 1)) if random.random() < 0.1 else None
    found = [
        (1, vector([b"\x60" + b"".join(vector([bytes([kind]) for kind in kinds]) for kinds in two) for two in types])),
        (2, vector([sized(module) + sized(name) + b"\0" + leb(index) for module, name, index in imported])),
        (3, vector([leb(index) for index in indices])),
        (4, vector([b"\x70" + limits(4096)] * shape.has_table)),
        (5, vector([limits(16)] * shape.has_memory)),
        (6, vector([bytes([kind, mutable]) + constant(kind) + b"\x0b" for kind, mutable in shape.globals])),
        (7, vector([sized(name) + bytes([kind]) + leb(index) for name, kind, index in exports])),
        (8, start),
        (9, vector(elements)),
        (10, vector([sized(func(shape, index)) for index in indices])),
        (11, vector(data)),
    ]
    return [(number, part) for number, part in found if part is not None]


def bent(data: bytes) -> bytes:
    """The bytes with a few of them changed, added, left out or cut off."""
    data = bytearray(data)
    for _ in range(random.choice([1, 1, 1, 2, 3])):
        at, kind = random.randrange(len(data)), random.random()
        if kind < 0.5:
            data[at] = random.choice([random.randrange(256), data[at] ^ 1 << random.randrange(8), data[at] | 0x80, 0, 255])
        elif kind < 0.7:
            data.insert(at, random.randrange(256))
        elif kind < 0.9 and len(data) > 1:
            del data[at]
        elif at > 0:
            del data[at:]
    return bytes(data)


def module() -> bytes:
    parts = sections()
    if random.random() < 0.05:
        random.shuffle(parts)
    data = b"\0asm\1\0\0\0" + custom()
    for number, part in parts:
        is_left_out = random.random() < (0.7 if part == b"\0" else 0.03)
        if not is_left_out:
            data += bytes([number]) + sized(part) + custom()
    return bent(data) if random.random() < 0.5 else data


PIECES = ['"', ":", ",", "{", "}", "[", "]", "0", "1", "-0", "1.5", "1e2", "1e400", "NaN", "+1", "01", "null", "true",
          "18446744073709551615", "18446744073709551616", "-9223372036854775808", "-9223372036854775809",
          "\\", "\\u0000", "\\ud800", "\\ud83d\\ude00", "\\n", "\t", " ", "\r", "\0", "\x1f", "\x7f", "\ufeff", "ä", "/", "G",
          '"op":"state"', '"id":"a"', '"x":1.5,', '"x":1,', '"env":[],', '"linux":{},', '"ociVersion":"1."', '"a":{"b":[1]},']


def bent_text(text: str) -> str:
    for _ in range(random.choice([1, 1, 1, 2, 4])):
        at, kind = random.randrange(len(text) + 1), random.random()
        if kind < 0.45:
            text = text[:at] + random.choice(PIECES) + text[at:]
        elif kind < 0.7:
            text = text[:at] + text[at + 1:]
        elif kind < 0.85:
            text = text[:at] + chr(random.randrange(1, 127)) + text[at + 1:]
        elif kind < 0.92:
            text = text[:at] + text[at // 2:at] + text[at:]
        else:
            opened, closed = (random.choice(pair) * random.choice([1, 126, 127, 128]) for pair in ("[{", "]}"))
            text = text[:at] + opened + text[at:] + closed
    return text


ENTRIES = ["A=1", "A=1", "B=", "ä=x", "==x", "=x", "A", "", "A=\0", "ä=", 1, None]
MEMORY_LIMITS = [-1, 0, 65_535, 65_536, 131_071, 1_048_576, 2_000_000, 16_777_216, 2**64 - 1, 2**64, -2, 1.0, "1", None, True]


def entries() -> Any:
    """An environment, at times one that a config may not have."""
    if random.random() < 0.1:
        return random.choice([None, {}, "A=1", 1])
    if random.random() < 0.1:
        return ["A=" + "x" * random.choice([65_530, 65_531, 65_532, 65_533])]
    good = random.random() < 0.6
    return [random.choice(ENTRIES[:5] if good else ENTRIES) for _ in range(random.choice([0, 1, 1, 2, 64, 65]))]


# Values of other kinds than that of a part.
MALFORMED: list[Any] = [None, [], {}]


def linux() -> dict[str, Any]:
    """A part for Linux, at times cut short or malformed."""
    part: dict[str, Any] = {"limit": random.choice(MEMORY_LIMITS)} if random.random() < 0.9 else {}
    for key in ("memory", "resources", "linux"):
        part = {key: random.choice(MALFORMED) if random.random() < 0.05 else part}
    return part


def config(digest: str) -> str:
    many = random.random() < 0.3
    digests = [digest] * 5 + ["sha256:" + "0" * 64, digest.upper(), digest[:-1]]
    process = {
        "args": [random.choice(["a", "", "ä"]) for _ in range(random.choice([1, 2, 0, 64, 65]))] if many else ["a"],
        "cwd": random.choice(["/", "/x", "", " /"]) if random.random() < 0.15 else "/",
    }
    if random.random() < 0.4:
        process["env"] = entries()
    text = json.dumps({
        "ociVersion": random.choice(["1.0.2", "1.", "1", "2.0", ""]) if random.random() < 0.2 else "1.0.2",
        "process": process,
        "annotations": {"dev.shim.module": random.choice(digests)},
        **(linux() if random.random() < 0.4 else {}),
    })
    return bent_text(text) if random.random() < 0.5 else text


IDS = ["a", "b", "c", "0", "A.b_-", "", ".a", "a" * 64, "a" * 65, "ä", "a b", "a\n"]
OTHERS = ["sha256:" + hashlib.sha256(data).hexdigest() for data in (b"", b"abc", b"\xab\xcd")]
BUDGETS = [1, 1, 2, 1_000_000, 0, 1_000_001, 1.0, -1, 2**64 - 1, 2**64, True, None, "1"]


def request(data: bytes, digest: str) -> dict[str, Any]:
    name = random.choice(IDS if random.random() < 0.3 else "aab")
    texts = [data.hex(), data.hex(), data.hex().upper(), "", "616263", "ABcd", "0", "0g", "00" * random.randint(0, 9)]
    named = random.choice([digest, digest, *OTHERS, digest.upper(), digest[:-1], "sha256:" + "0" * 64, ""])
    lease = random.choice(IDS) if random.random() < 0.2 else random.choice("lm")
    place: dict[str, Any] = {"func": random.choice([1, 1, 0, 2, 2**64, -1, "1", 1.0]),
                             "place": random.choice([0, 0, 1, 2, 2**32, -1, "0"])}
    kinds: dict[str, dict[str, Any]] = {
        "break": {"id": name, **place},
        "unbreak": {"id": name, **place},
        "step": {"id": name, "count": random.choice([1, 1, 2, 1000, 0, 1001, 2**64, -1, "1", 1.0, None])},
        "peek": {"id": name, "address": random.choice([0, 0, 1, 2**63, -1, "0"]),
                 "length": random.choice([0, 0, 1, 257, None])},
        "put": {"hex": random.choice(texts)},
        "remove": {"digest": named},
        "lease_create": {"id": lease},
        "lease_add": {"digest": named, "id": lease},
        "lease_delete": {"id": lease},
        "gc": {},
        "create": {"id": name, "config": config(digest)},
        "take": {"id": name, "budget": random.choice(BUDGETS)},
        "output": {"id": name, "stream": random.choice([1, 1, 2, 2, 0, 3, -1, 2**64, 1.0, "1", None])},
        "kill": {"id": name, "signal": random.choice([9, 9, 15, 15, 10, 0, -1, 2**64, 9.0, "9", None])},
    }
    op = random.choice(["put", "put", *["create"] * 4, "start", "start", "state", "wait", "take", "take", "return", "pause",
                        "resume", "kill", "delete", "remove", "lease_create", "lease_add", "lease_add", "lease_delete",
                        "gc", "output", "output", "break", "break", "unbreak", "step", "step", "inspect", "inspect", "peek"])
    return {"op": op, **kinds.get(op, {"id": name})}


def line(data: bytes, digest: str) -> bytes:
    """A line without its line feed, over a content with that data and digest."""
    members = list(request(data, digest).items())
    random.shuffle(members)
    text = json.dumps(dict(members), ensure_ascii=random.random() < 0.5)
    if random.random() < 0.35:
        text = bent_text(text)
    encoded = text.encode("utf-8", "surrogatepass")
    if random.random() < 0.03:
        encoded = bent(encoded)
    return encoded.replace(b"\n", b" ")
