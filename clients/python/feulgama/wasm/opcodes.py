"""The instructions of the profile: their words, and how many bytes they access."""
from __future__ import annotations

BLOCK, LOOP, IF, ELSE, END = 0x02, 0x03, 0x04, 0x05, 0x0B
BR, BR_IF, BR_TABLE, CALL, CALL_INDIRECT = 0x0C, 0x0D, 0x0E, 0x10, 0x11
I32_CONST, I64_CONST = 0x41, 0x42
MEMORY_SIZE, MEMORY_GROW = 0x3F, 0x40
UNREACHABLE, NOP, RETURN, DROP, SELECT = 0x00, 0x01, 0x0F, 0x1A, 0x1B
LOCAL_GET, LOCAL_SET, LOCAL_TEE, GLOBAL_GET, GLOBAL_SET = 0x20, 0x21, 0x22, 0x23, 0x24
I32_ADD, I32_SUB = 0x6A, 0x6B
LOADS, STORES = range(0x28, 0x36), range(0x36, 0x3F)
I32, I64 = 0x7F, 0x7E
TYPES = {I32: "i32", I64: "i64"}
CALLS = (CALL, CALL_INDIRECT)
BLOCKS = {BLOCK: "block", LOOP: "loop", IF: "if"}

RELATIONS = ("eq", "ne", "lt_s", "lt_u", "gt_s", "gt_u", "le_s", "le_u", "ge_s", "ge_u")
UNARY = ("clz", "ctz", "popcnt")
BINARY = ("add", "sub", "mul", "div_s", "div_u", "rem_s", "rem_u", "and", "or", "xor", "shl", "shr_s", "shr_u", "rotl",
          "rotr")


def words(first: int, kind: str, names: tuple[str, ...]) -> dict[int, str]:
    """The words of operators of one type, whose opcodes follow one another."""
    return {first + at: f"{kind}.{name}" for at, name in enumerate(names)}


# Instructions with nothing after their opcode.
BARE: dict[int, str] = {
    UNREACHABLE: "unreachable", NOP: "nop", RETURN: "return", DROP: "drop", SELECT: "select",
    **words(0x45, "i32", ("eqz", *RELATIONS)), **words(0x50, "i64", ("eqz", *RELATIONS)),
    **words(0x67, "i32", UNARY + BINARY), **words(0x79, "i64", UNARY + BINARY),
    0xA7: "i32.wrap_i64", 0xAC: "i64.extend_i32_s", 0xAD: "i64.extend_i32_u",
    0xC0: "i32.extend8_s", 0xC1: "i32.extend16_s",
    0xC2: "i64.extend8_s", 0xC3: "i64.extend16_s", 0xC4: "i64.extend32_s",
}

# Instructions with an index after their opcode.
INDEXED: dict[int, str] = {
    BR: "br", BR_IF: "br_if", CALL: "call",
    LOCAL_GET: "local.get", LOCAL_SET: "local.set", LOCAL_TEE: "local.tee", GLOBAL_GET: "global.get",
    GLOBAL_SET: "global.set",
}

# Loads and stores: their words, and how many bytes they access.
ACCESSES: dict[int, tuple[str, int]] = {
    0x28: ("i32.load", 4), 0x29: ("i64.load", 8),
    0x2C: ("i32.load8_s", 1), 0x2D: ("i32.load8_u", 1), 0x2E: ("i32.load16_s", 2), 0x2F: ("i32.load16_u", 2),
    0x30: ("i64.load8_s", 1), 0x31: ("i64.load8_u", 1), 0x32: ("i64.load16_s", 2), 0x33: ("i64.load16_u", 2),
    0x34: ("i64.load32_s", 4), 0x35: ("i64.load32_u", 4),
    0x36: ("i32.store", 4), 0x37: ("i64.store", 8), 0x3A: ("i32.store8", 1), 0x3B: ("i32.store16", 2),
    0x3C: ("i64.store8", 1), 0x3D: ("i64.store16", 2), 0x3E: ("i64.store32", 4),
}
