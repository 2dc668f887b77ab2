#!/usr/bin/env python3
"""Counts what the loop's commonest instructions cost in the built program's machine code.

    bench/turn_table.py [PROGRAM]

It reads `objdump -d` and the jump table of each loop: those that look at no turn, and the one that looks at each for
breakpoints. An arm's way is the shortest one from its entry in the table to the next jump through the table, in machine
instructions; calls count as 100, so that a way with a call is taken only where there is no other. It prints, for each way,
its machine instructions, how many of them load, store and branch, and how many of the branches are taken on that way, the
jump through the table included. `br_if` has two ways. Of branches it reads those that keep no operand, which have their
target in their cell; `return` is a branch and the end of a body, which takes no turn. Before that it says whether the head of
the loop lies in one line of 64 bytes.
No program is run, so what the processor makes of the code does not show.
"""
import heapq
import os
import re
import signal
import struct
import subprocess

from shared import TOP, arguments

OPCODES = os.path.join(TOP, "crates/flat_code/src/opcode.rt")
ROWS = (("local.get", "LocalGet"), ("local.set", "LocalSet"), ("local.tee", "LocalTee"), ("i32.const", "Const32"),
        ("i32.add", "I32Add"), ("i32.load", "LoadI32"), ("i32.store", "StoreI32"), ("block", "Pass"),
        ("br_if, goes on", "ShortJumpIf"), ("br_if, branches", "ShortJumpIf"), ("br", "ShortJump"), ("call", "Call"),
        ("end of a body", "Leave"))
# The copies of the loop are compiled as functions of their own.
LOOP = "::run_loop::run_loop"
LINE = re.compile(r"^\s*([0-9a-f]+):\s+(\S+)\s*(.*?)\s*(?:#\s*([0-9a-f]+) .*)?$")
# A branch that is made reads its height, two bytes at offset 2 of its cell.
TARGET = re.compile(r"movzw[lq] 0x2\(")
LARGE = 100
# A head that crosses a line of the processor's costs a tenth of the speed and more.
LINE_BYTES = 64


def variants():
    """The names of the opcodes, in the order of their numbers."""
    with open(OPCODES, encoding="utf-8") as file:
        text = file.read()
    body = text[text.index("pub enum Opcode {"):]
    return re.findall(r"^    (\w+),", body[:body.index("\n}")], re.M)


def functions(program):
    """The functions of the program: of each its instructions as address, name, operands and the address they name."""
    text = subprocess.run(["objdump", "-d", "--no-show-raw-insn", program], capture_output=True, text=True, check=True).stdout
    made = []
    for line in text.splitlines():
        if line.endswith(">:"):
            made.append((line.split("<", 1)[1][:-2], []))
        elif made and (found := LINE.match(line)):
            at, name, operands, named = found.groups()
            made[-1][1].append((int(at, 16), name, operands, int(named, 16) if named else None))
    return made


def read_only(program):
    """The bytes of read-only data, with their address."""
    text = subprocess.run(["objdump", "-h", program], capture_output=True, text=True, check=True).stdout
    found = re.search(r" \.rodata +([0-9a-f]+) +([0-9a-f]+) +[0-9a-f]+ +([0-9a-f]+)", text)
    size, at, offset = (int(it, 16) for it in found.groups())
    with open(program, "rb") as file:
        file.seek(offset)
        return at, file.read(size)


def table_in(code, where, data, count):
    """The address of the function's jump table of this number of arms, and its entries; none if it has no such table."""
    start, held = data
    for named in {it[3] for it in code if it[1].startswith("lea") and it[3]}:
        at = named - start
        if not 0 <= at <= len(held) - 4 * count:
            continue
        entries = [named + it for it in struct.unpack_from("<%di" % count, held, at)]
        if all(it in where for it in entries):
            return named, entries
    return None, []


def is_dispatch(code, index, table):
    """Whether this jump goes by the tag of a cell: by this table, or by a byte of a row of cells, read shortly before it."""
    if not code[index][1].startswith("jmp") or not code[index][2].startswith("*%"):
        return False
    before = code[max(0, index - 12):index]
    return any(it[3] == table or it[1].startswith("movzb") and ",8)" in it[2] for it in before)


def is_jump(name):
    return name.startswith("j")


def nexts(code, where, index):
    """Where it goes on after an instruction, and whether that is by a branch that is taken."""
    at, name, operands, _ = code[index]
    if name.startswith(("ret", "ud2", "hlt")) or operands.startswith("*"):
        return []
    ways = []
    if is_jump(name):
        to = where.get(int(operands.split()[0], 16))
        ways = [(to, True)] if to is not None else []
    if not name.startswith("jmp") and index + 1 < len(code):
        ways.append((index + 1, False))
    return ways


def accesses(name, operands):
    """How often an instruction reads and writes memory by an operand."""
    if "(" not in operands or name.startswith(("lea", "nop", "prefetch")) or is_jump(name):
        return 0, 0
    parts = re.findall(r"[^,(]*\([^)]*\)|[^,]+", operands)
    if "(" not in parts[-1]:
        return 1, 0
    if name.startswith(("cmp", "test", "bt")):
        return 1, 0
    return (0, 1) if name.startswith(("mov", "set", "vmov")) else (1, 1)


def way(code, where, start, table, branches):
    """The shortest way to a jump by a tag, as counts; by a branch's target or not, or either."""
    first = where[start]
    queue, done = [(0, first, branches is None, ())], set()
    while queue:
        cost, index, has_target, path = heapq.heappop(queue)
        if (index, has_target) in done:
            continue
        done.add((index, has_target))
        _, name, operands, _ = code[index]
        reads_target = bool(TARGET.match(name + " " + operands))
        if branches is False and reads_target:
            continue
        has_target = has_target or branches is False or reads_target
        if is_dispatch(code, index, table):
            if has_target:
                return counted(code, path + ((index, True),))
            continue
        cost += LARGE if name.startswith("call") else 1
        for to, taken in nexts(code, where, index):
            heapq.heappush(queue, (cost, to, has_target, path + ((index, taken),)))
    return None


def counted(code, path):
    loads = stores = jumps = taken = 0
    for index, is_taken in path:
        _, name, operands, _ = code[index]
        reads, writes = accesses(name, operands)
        loads, stores = loads + reads, stores + writes
        jumps, taken = jumps + is_jump(name), taken + is_taken
    return len(path), loads, stores, jumps, taken


def head_of(code, table):
    """The addresses where the head of the loop begins, which is where the arms jump back to, and where it ends."""
    ends = [index for index in range(len(code)) if is_dispatch(code, index, table)]
    jumps = [it[2].split()[0] for it in code if is_jump(it[1]) and it[2] and not it[2].startswith("*")]
    begin = end = ends[0]
    while begin > 0 and jumps.count("%x" % code[begin][0]) < 2:
        begin -= 1
    return code[begin][0], code[end + 1][0] if end + 1 < len(code) else code[end][0]


def main():
    signal.signal(signal.SIGPIPE, signal.SIG_DFL)  # as of any filter, whose reader may leave early
    program, _ = arguments(0)
    names, data = variants(), read_only(program)
    for name, code in functions(program):
        if LOOP not in name:
            continue
        where = {it[0]: index for index, it in enumerate(code)}
        table, entries = table_in(code, where, data, len(names))
        if not entries:
            continue
        print("%s: %d machine instructions, %d arms" % (name, len(code), len(names)))
        begin, end = head_of(code, table)
        print("the head of the loop: %d bytes, %s of 64 bytes" % (
            end - begin, "in one line" if begin // LINE_BYTES == (end - 1) // LINE_BYTES else "across two lines"))
        print("%-16s %12s %6s %6s %9s %6s" % ("", "instructions", "loads", "stores", "branches", "taken"))
        for row, cell in ROWS:
            branches = {"br_if, goes on": False, "br_if, branches": True}.get(row)
            found = way(code, where, entries[names.index(cell)], table, branches)
            if found:
                print("%-16s %12d %6d %6d %9d %6d" % ((row,) + found))
            else:
                print("%-16s %12s" % (row, "no way"))


if __name__ == "__main__":
    main()
