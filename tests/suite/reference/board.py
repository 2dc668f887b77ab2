"""Lines, configs and the board: what each line is answered."""
from __future__ import annotations

import hashlib
import json
import re
import typing
from typing import Any, NoReturn

from suite.reference import wasm
from suite.reference.execute import Machine

MOST_LINE, MOST_CONTENTS, MOST_TASKS, MOST_DEPTH = 1_048_576, 256, 64, 127
MOST_LEASES, MOST_MEMBERS, MOST_BREAKS, MOST_STEPS, MOST_PEEK = 64, 64, 32, 1000, 256
NAMES = {1: "BadRequest", 2: "BadId", 3: "Exists", 4: "NotFound", 5: "NoContent", 6: "InUse", 7: "BadModule", 8: "Invalid",
         9: "Limit", 10: "BadConfig", 11: "WrongStatus", 12: "Busy", 13: "OutOfRange", 14: "TooMany", 21: "NoEntry",
         22: "BadImport", 23: "SegmentOutOfBounds"}
ID = re.compile(r"[A-Za-z0-9][A-Za-z0-9._-]{0,63}\Z")
DIGEST = re.compile(r"sha256:[0-9a-f]{64}\Z")
HEX = re.compile(r"([0-9A-Fa-f]{2})*\Z")


class NoJson(Exception):
    """The text is no JSON value."""


class Fraction:
    """A number that is read as neither a u64 nor an i64."""


def whole(text: str) -> int | Fraction:
    value = int(text) if len(text) < 400 else 10**400
    if value >= 2**64 or value < -2**63 or text.startswith("-0"):
        return fraction(text)
    return value


def fraction(text: str) -> Fraction:
    if float(text) in (float("inf"), float("-inf")):
        raise NoJson
    return Fraction()


def no_constant(_text: str) -> NoReturn:
    raise NoJson


def is_scalar_text(value: str) -> bool:
    return not any(0xD800 <= ord(character) < 0xE000 for character in value)


def members(pairs: list[tuple[str, Any]]) -> dict[str, Any]:
    for key, value in pairs:
        if not is_scalar_text(key) or not all_scalar(value):
            raise NoJson
    return dict(pairs)


def all_scalar(value: Any) -> bool:
    if isinstance(value, str):
        return is_scalar_text(value)
    return all(map(all_scalar, value)) if isinstance(value, list) else True


def depth_of(text: str) -> int:
    """How many arrays and objects stand open at most; texts are passed over."""
    bare = re.sub(r'"(\\.|[^"\\])*"?', "", text, flags=re.DOTALL)
    depth = most = 0
    for character in bare:
        depth += (character in "[{") - (character in "]}")
        most = max(most, depth)
    return most


def parse(text: str) -> Any:
    if text.startswith("\ufeff") or depth_of(text) > MOST_DEPTH:
        raise NoJson
    try:
        value = json.loads(text, parse_int=whole, parse_float=fraction, parse_constant=no_constant,
                           object_pairs_hook=members)
    except (ValueError, RecursionError):
        raise NoJson from None
    if not all_scalar(value):
        raise NoJson
    return value


def has_fraction(value: Any) -> bool:
    if isinstance(value, dict):
        return any(map(has_fraction, value.values()))
    return any(map(has_fraction, value)) if isinstance(value, list) else isinstance(value, Fraction)


def request_of(line: bytes, in_replay: bool) -> dict[str, Any] | None:
    """The members of a request or, in a replay, of an event line; None where the line is neither."""
    try:
        value = parse(line.decode("utf-8"))
    except (UnicodeDecodeError, NoJson):
        return None
    if len(line) > MOST_LINE or not isinstance(value, dict) or not isinstance(value.get("op"), str):
        return None
    keys: dict[str, list[str]] = {
        "put": ["hex"], "remove": ["digest"], "lease_create": ["id"], "lease_add": ["digest", "id"],
        "lease_delete": ["id"], "gc": [], "create": ["config", "id"], "start": ["id"], "pause": ["id"],
        "resume": ["id"], "kill": ["id", "signal"], "delete": ["id"], "state": ["id"], "wait": ["id"],
        "output": ["id", "stream"], "break": ["func", "id", "place"], "unbreak": ["func", "id", "place"],
        "step": ["count", "id"], "inspect": ["id"], "peek": ["address", "id", "length"]}
    numbers = ("signal", "stream", "func", "place", "count", "address", "length")
    if in_replay:
        keys |= {"return": ["id"], "take": ["budget", "id"]}
    wanted = keys.get(value["op"])
    if wanted is None or set(value) != {"op", *wanted}:
        return None
    if not all(isinstance(value[key], str) for key in wanted if key not in ("budget", *numbers)):
        return None
    if not all(type(value[key]) is int and value[key] >= 0 for key in wanted if key in numbers):
        return None
    if "hex" in wanted and not HEX.match(value["hex"]):
        return None
    if "budget" in wanted and not (type(value["budget"]) is int and 1 <= value["budget"] <= 1_000_000):
        return None
    return value


class Process(typing.NamedTuple):
    digest: str
    args: list[str]
    env: list[str]
    cap: int


def texts_of(value: list[Any] | None, least: int, most: int) -> list[str] | None:
    """A list of at least and at most these numbers of texts without U+0000; None for any other value."""
    if not isinstance(value, list) or not least <= len(value) <= most:
        return None
    return value if all(isinstance(text, str) and "\0" not in text for text in value) else None


def cap_of(config: dict[str, Any]) -> int | None:
    """The most pages that a config lets a memory have; None where its part for Linux is malformed."""
    part = config
    for key in ("linux", "resources", "memory"):
        part = part.get(key, {})
        if not isinstance(part, dict):
            return None
    limit = part.get("limit", -1)
    if type(limit) is not int or limit < -1:
        return None
    return wasm.PAGE_CAP if limit == -1 else min(limit // wasm.PAGE, wasm.MOST_PAGES)


def process_of(text: str) -> Process | None:
    """The process that a config asks for; None where it is no config."""
    try:
        value = parse(text)
    except NoJson:
        return None
    if not isinstance(value, dict) or has_fraction(value):
        return None
    version, process, notes, cap = *(value.get(key) for key in ("ociVersion", "process", "annotations")), cap_of(value)
    if not isinstance(version, str) or not version.startswith("1.") or cap is None:
        return None
    if not isinstance(process, dict) or not isinstance(notes, dict):
        return None
    args, env, cwd = texts_of(process.get("args"), 1, 64), texts_of(process.get("env", []), 0, 64), process.get("cwd")
    if args is None or env is None or not all("=" in entry[1:] for entry in env):
        return None
    if not isinstance(cwd, str) or not cwd.startswith("/") or "\0" in cwd:
        return None
    if sum(len(text.encode()) + 1 for text in args + env) > 65_536:
        return None
    digest = notes.get("dev.shim.module")
    if not all(isinstance(note, str) for note in notes.values()) or digest is None or not DIGEST.match(digest):
        return None
    return Process(digest, args, env, cap)


class Refused(Exception):
    def __init__(self, number: int, place: tuple[int, int] | None = None) -> None:
        super().__init__(number)
        self.number, self.place = number, place

    def reply(self) -> dict[str, Any]:
        reply = {"error": NAMES[self.number], "number": self.number, "ok": False}
        if self.place is not None:
            reply["func"], reply["place"] = self.place
        return reply


def line_of(reply: dict[str, Any]) -> bytes:
    """The line of a reply, without its line feed."""
    return json.dumps(reply, separators=(",", ":"), sort_keys=True, ensure_ascii=False).encode()


class Task:
    def __init__(self, process: Process, data: bytes) -> None:
        self.process, self.data, self.turns, self.status = process, data, 0, "created"
        self.out: int | None = None
        self.end: dict[str, Any] | None = None
        self.signal: int | None = None
        self.breaks: list[tuple[int | None, int]] = []
        self.machine = Machine(wasm.Decoder(data).module(), process.cap, process.args, process.env)

    def start(self) -> None:
        self.status = "running"
        self.run(0)

    def run(self, budget: int, pauses: bool = False) -> None:
        self.machine.run(budget, self.breaks)
        self.turns, end = self.machine.turns, self.machine.end
        if end is not None:
            self.status, self.end = "stopped", end
        elif self.signal is not None:
            self.stop_by(self.signal)
        elif pauses or self.status == "pausing" or self.machine.is_at(self.breaks):
            self.status = "paused"

    def stop_by(self, signal: int) -> None:
        self.status = "stopped"
        self.end = {"cause": "kill", "exit": 128 + signal, "signal": signal}

    def output(self, stream: int) -> bytes:
        """What it has written."""
        return bytes(self.machine.streams[stream])

    def state(self, name: str) -> dict[str, Any]:
        return {"id": name, "n": self.turns, "ok": True, "status": self.status, **(self.end or {})}


class Board:
    def __init__(self, in_replay: bool) -> None:
        self.in_replay = in_replay
        self.contents: dict[str, bytes] = {}
        self.leases: dict[str, list[str]] = {}
        self.tasks: dict[str, Task] = {}

    def answer(self, line: bytes) -> bytes:
        """The line that a line is answered."""
        request = request_of(line, self.in_replay)
        try:
            if request is None:
                raise Refused(1)
            reply = getattr(self, request.pop("op") + "_")(**request)
        except Refused as refused:
            reply = refused.reply()
        return line_of(reply)

    def put_(self, hex: str) -> dict[str, Any]:
        data = bytes.fromhex(hex)
        digest = "sha256:" + hashlib.sha256(data).hexdigest()
        if len(data) > wasm.MOST_BYTES:
            raise Refused(9)
        if digest in self.contents:
            raise Refused(3)
        if len(self.contents) >= MOST_CONTENTS:
            raise Refused(14)
        self.contents[digest] = data
        return {"digest": digest, "ok": True, "size": len(data)}

    def is_held(self, digest: str) -> bool:
        return any(digest in members for members in self.leases.values()) or any(
            task.process.digest == digest for task in self.tasks.values())

    def remove_(self, digest: str) -> dict[str, Any]:
        if not DIGEST.match(digest):
            raise Refused(2)
        if digest not in self.contents:
            raise Refused(5)
        if self.is_held(digest):
            raise Refused(6)
        del self.contents[digest]
        return {"digest": digest, "ok": True}

    def lease_create_(self, id: str) -> dict[str, Any]:
        if not ID.match(id):
            raise Refused(2)
        if id in self.leases:
            raise Refused(3)
        if len(self.leases) >= MOST_LEASES:
            raise Refused(14)
        self.leases[id] = []
        return {"id": id, "ok": True}

    def lease_add_(self, digest: str, id: str) -> dict[str, Any]:
        if not DIGEST.match(digest) or not ID.match(id):
            raise Refused(2)
        if id not in self.leases:
            raise Refused(4)
        if digest not in self.contents:
            raise Refused(5)
        if digest in self.leases[id]:
            raise Refused(3)
        if len(self.leases[id]) >= MOST_MEMBERS:
            raise Refused(14)
        self.leases[id].append(digest)
        return {"digest": digest, "id": id, "ok": True}

    def lease_delete_(self, id: str) -> dict[str, Any]:
        if not ID.match(id):
            raise Refused(2)
        if id not in self.leases:
            raise Refused(4)
        del self.leases[id]
        return {"id": id, "ok": True}

    def gc_(self) -> dict[str, Any]:
        removed = [digest for digest in self.contents if not self.is_held(digest)]
        for digest in removed:
            del self.contents[digest]
        return {"ok": True, "removed": removed}

    def create_(self, config: str, id: str) -> dict[str, Any]:
        if not ID.match(id):
            raise Refused(2)
        if id in self.tasks:
            raise Refused(3)
        if len(self.tasks) >= MOST_TASKS:
            raise Refused(14)
        process = process_of(config)
        if process is None:
            raise Refused(10)
        if process.digest not in self.contents:
            raise Refused(5)
        data = self.contents[process.digest]
        for number, place in wasm.refusals_of(data, process.cap):
            raise Refused(number, place)
        self.tasks[id] = Task(process, data)
        return {"id": id, "ok": True, "status": "created"}

    def task(self, name: str) -> Task:
        if not ID.match(name):
            raise Refused(2)
        if name not in self.tasks:
            raise Refused(4)
        return self.tasks[name]

    def start_(self, id: str) -> dict[str, Any]:
        task = self.task(id)
        if task.status != "created":
            raise Refused(11)
        task.start()
        return {"id": id, "ok": True, "status": task.status}

    def pause_(self, id: str) -> dict[str, Any]:
        task = self.task(id)
        if task.status != "running":
            raise Refused(11)
        task.status = "paused" if task.out is None else "pausing"
        return {"id": id, "ok": True, "status": task.status}

    def resume_(self, id: str) -> dict[str, Any]:
        task = self.task(id)
        if task.status != "paused":
            raise Refused(11)
        task.status = "running"
        return {"id": id, "ok": True, "status": task.status}

    def kill_(self, id: str, signal: int) -> dict[str, Any]:
        task = self.task(id)
        if signal not in (9, 15):
            raise Refused(13)
        if task.status == "stopped":
            raise Refused(11)
        if task.out is None:
            task.stop_by(signal)
        elif task.signal is None:
            task.signal = signal
        return {"id": id, "ok": True, "status": task.status}

    def delete_(self, id: str) -> dict[str, Any]:
        task = self.task(id)
        if task.status != "stopped":
            raise Refused(11)
        del self.tasks[id]
        return task.state(id)

    def state_(self, id: str) -> dict[str, Any]:
        return self.task(id).state(id)

    def wait_(self, id: str) -> dict[str, Any]:
        task = self.task(id)
        if task.status in ("running", "pausing") and self.in_replay:
            raise Refused(12)
        if task.status == "running":
            task.run(10**15)
        return task.state(id)

    def output_(self, id: str, stream: int) -> dict[str, Any]:
        task = self.task(id)
        if stream not in (1, 2):
            raise Refused(13)
        if task.out is not None:
            raise Refused(12)
        written = task.output(stream)
        return {"hex": written.hex(), "id": id, "ok": True, "size": len(written)}

    def breakable(self, func: int, id: str, place: int) -> Task:
        task = self.task(id)
        if task.status not in ("created", "paused"):
            raise Refused(11)
        if not task.machine.has_place(func, place):
            raise Refused(13)
        return task

    def break_(self, func: int, id: str, place: int) -> dict[str, Any]:
        task = self.breakable(func, id, place)
        if (func, place) in task.breaks:
            raise Refused(3)
        if len(task.breaks) >= MOST_BREAKS:
            raise Refused(14)
        task.breaks.append((func, place))
        return {"id": id, "ok": True}

    def unbreak_(self, func: int, id: str, place: int) -> dict[str, Any]:
        task = self.breakable(func, id, place)
        if (func, place) not in task.breaks:
            raise Refused(4)
        task.breaks.remove((func, place))
        return {"id": id, "ok": True}

    def step_(self, count: int, id: str) -> dict[str, Any]:
        task = self.task(id)
        if task.status != "paused":
            raise Refused(11)
        if not 1 <= count <= MOST_STEPS:
            raise Refused(13)
        task.run(count, True)
        return task.state(id)

    def inspect_(self, id: str) -> dict[str, Any]:
        task = self.task(id)
        if task.out is not None:
            raise Refused(12)
        return {"frames": task.machine.shown(), "id": id, "n": task.turns, "ok": True}

    def peek_(self, address: int, id: str, length: int) -> dict[str, Any]:
        task = self.task(id)
        if task.out is not None:
            raise Refused(12)
        if length > MOST_PEEK or address + length > len(task.machine.memory):
            raise Refused(13)
        return {"hex": task.machine.memory[address:address + length].hex(), "id": id, "ok": True}

    def take_(self, budget: int, id: str) -> dict[str, bool]:
        task = self.tasks.get(id)
        if task is None or task.status != "running" or task.out is not None:
            return {"ok": True, "taken": False}
        task.out = budget
        return {"ok": True, "taken": True}

    def return_(self, id: str) -> dict[str, bool]:
        task = self.tasks.get(id)
        if task is None or task.out is None:
            return {"ok": True, "returned": False}
        task.run(task.out)
        task.out = None
        return {"ok": True, "returned": True}
