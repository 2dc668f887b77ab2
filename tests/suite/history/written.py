"""Histories in a short notation, for trials: `kill x -> stopped` is a request with its reply."""
import hashlib
import json
import typing

from suite.history.tasks import Members, line_of, refusal

# (type (func)) (func loop br 0 end) (export "_start" (func 0)), and the same with three nops for the loop
ENDLESS = bytes.fromhex("0061736d0100000001040160000003020100070a01065f737461727400000a0901070003400c000b0b")
SHORT = bytes.fromhex("0061736d0100000001040160000003020100070a01065f737461727400000a07010500010101" + "0b")
TEXT = "(module)"  # stands for any text: nothing is known of its module but a digest
MODULES = {"endless": ENDLESS, "short": SHORT, "text": TEXT.encode()}
NUMBERS = {"kill": "signal", "output": "stream", "step": "count"}


def digest_of(name: str) -> str:
    return "sha256:" + hashlib.sha256(MODULES[name]).hexdigest()


def config_of(name: str) -> str:
    process = {"args": ["a"], "cwd": "/"}
    return json.dumps({"ociVersion": "1.0.2", "process": process, "annotations": {"dev.shim.module": digest_of(name)}})


def request_as(op: str, id: str = "", *others: str) -> Members:
    """The request of `create x short`, `kill x 15`, `put short`, `lease_add l short`, `break x 0 2` ..; a signal is 9
    and a stream 1, if none is there."""
    if op == "gc":
        return {"op": op}
    if op == "put":
        return {"op": "put_text", "text": TEXT} if id == "text" else {"op": op, "hex": MODULES[id].hex()}
    if op == "remove":
        return {"op": op, "digest": digest_of(id)}
    if op == "lease_add":
        return {"op": op, "digest": digest_of(others[0]), "id": id}
    if op == "create":
        return {"op": op, "id": id, "config": config_of(others[0])}
    if op in ("break", "unbreak"):
        return {"op": op, "id": id, "func": int(others[0]), "place": int(others[1])}
    numbers = {NUMBERS[op]: int(others[0]) if others else {"kill": 9}.get(op, 1)} if op in NUMBERS else {}
    return {"op": op, "id": id, **numbers}


def reply_as(id: str, word: str, *others: str) -> Members:
    """The reply of `11`, `running` with or without a count, `killed 0`, `returned 3`, `stored`, `done`, `wrote
    6869`."""
    if word.isdigit():
        return refusal(int(word)) | ({"column": 1, "line": 1} if word == "18" else {})
    if word == "stored":
        return {"digest": digest_of(id), "ok": True, "size": len(MODULES[id])}
    if word == "removed":
        return {"digest": digest_of(id), "ok": True}
    if word in ("done", "wrote"):
        written = "".join(others)
        return {"id": id, "ok": True, **({"hex": written, "size": len(written) // 2} if word == "wrote" else {})}
    ends: dict[str, Members] = {
        "returned": {"cause": "return", "exit": 0}, "killed": {"cause": "kill", "exit": 137, "signal": 9},
        "terminated": {"cause": "kill", "exit": 143, "signal": 15}}
    status = "stopped" if word in ends else word
    return {"id": id, "ok": True, "status": status, **ends.get(word, {}), **({"n": int(others[0])} if others else {})}


def history_as(callers: typing.Sequence[typing.Sequence[str]]) -> tuple[list[bytes], bytes]:
    """The scripts of callers, and what is printed of their replies."""
    scripts, printed = [], b""
    for calls in callers:
        halves = [call.split(" -> ") for call in calls]
        requests = [sent.split() for sent, _ in halves]
        scripts.append(b"".join(json.dumps(request_as(*words)).encode() + b"\n" for words in requests))
        replies = [reply_as(words[1], *told.split()) for words, (_, told) in zip(requests, halves)]
        printed += b"".join(line_of(reply).encode() + b"\n" for reply in replies)
    return scripts, printed
