"""Expressions that a user writes: numbers, locals and operands, variables and their members, memory, and what C computes
of them."""
from __future__ import annotations

import math
import re
from collections.abc import Callable
from dataclasses import dataclass

from feulgama.debug import c_types
from feulgama.debug.c_types import CType
from feulgama.debug.c_variables import Found
from feulgama.errors import FeulgamaError
from feulgama.model import Frame, Value, ValueType
from feulgama.wasm.names import Names

TOKEN = re.compile(r"""\s*(0x[0-9a-fA-F]+|\d+\.\d+(?:[eE][-+]?\d+)?|\d+|'(?:\\.|[^'\\])'|\$[\w$.]+|[A-Za-z_](?:\w|::(?=\w|\{))*
                       |->|<<|>>|<=|>=|==|!=|&&|\|\||[-+*/%&|^~!<>().\[\]])""", re.VERBOSE)
ESCAPES = {"n": 10, "t": 9, "r": 13, "0": 0}
TYPE_WORDS = ("struct", "union", "enum", "unsigned", "signed", "const", "volatile")
LEVELS = (("||",), ("&&",), ("|",), ("^",), ("&",), ("==", "!="), ("<", ">", "<=", ">="), ("<<", ">>"), ("+", "-"),
          ("*", "/", "%"))
LARGEST = 4096


class NoValueError(FeulgamaError):
    """Words that name no value here. The message says which, and why."""


@dataclass(frozen=True, slots=True)
class Operand:
    """A value: of a type of the source, or a local or an operand of a frame, or else a number. `data` are its bytes if it
    has a type, and `address` is where it is, if it is in memory."""
    number: int | None
    kind: CType | None = None
    data: bytes = b""
    address: int | None = None
    value: Value | None = None

    def real(self) -> float | None:
        """Its number if it is a float; None of anything else."""
        return self.kind.real(self.data) if isinstance(self.kind, c_types.Float) else None

    def whole(self) -> int:
        """Its number. Raises NoValueError if it has none."""
        if self.number is None:
            raise NoValueError(f"{self.kind.name if self.kind is not None else 'it'} is no number")
        return self.number


@dataclass(frozen=True, slots=True)
class Scope:
    """What words may name: the frame, None of a task that has ended; the names; the turn; memory, by an address and a
    number of bytes; by a name the variables of C of the frame, and those of all functions of the module; types; and by the
    numbers of a function and a local its type if it is a float."""
    frame: Frame | None
    names: Names
    turn: int
    memory: Callable[[int, int], bytes]
    variables: Callable[[str], list[Found]]
    globals: Callable[[str], list[Found]]
    type_named: Callable[[str], CType | None] = lambda _name: None
    float_local: Callable[[int, int], CType | None] = lambda _func, _index: None

    def variable(self, name: str) -> Found | None:
        """The variable of C with a name, or with one of which it is the last part."""
        return named(name, self.variables(name)) or named(name, self.globals(name))

    def at(self, address: int, kind: CType) -> Operand:
        """What is in memory at an address, by its type. Raises NoValueError if memory ends before."""
        address %= 2**32
        data = self.memory(address, min(kind.size, LARGEST))
        if len(data) < min(kind.size, LARGEST):
            raise NoValueError(f"there is no memory at {address:#x}")
        return Operand(kind.number(data), kind, data, address)


def named(name: str, variables: list[Found]) -> Found | None:
    """The variable with a name, or with one of which it is the last part."""
    return next((one for one in variables if one.name == name), None) or \
        next((one for one in variables if one.name.endswith("::" + name)), None)


def evaluate(text: str, scope: Scope) -> Operand:
    """The value that a text names. Raises NoValueError."""
    tokens, at = [], 0
    text = text.strip()
    while at < len(text):
        match = TOKEN.match(text, at)
        if match is None:
            raise NoValueError(f"{text[at:]} is no expression")
        tokens.append(match[1])
        at = match.end()
    reader = Expression(tokens, scope)
    try:
        found = reader.level(0)
        str(found.number)  # Python writes no number of more digits than it reads
    except (OverflowError, RecursionError, ValueError) as error:  # numbers of very many digits, very many parentheses
        raise NoValueError(f"{text[:40]}.. is too large to be computed") from error
    if reader.left():
        raise NoValueError(f"{' '.join(reader.left())} is one word too many")
    return found


def address(text: str, scope: Scope) -> int:
    """The number that a text names, as an address: an i32 is taken without its sign, and an array is where it is."""
    found = evaluate(text, scope)
    if found.number is None and found.address is not None:
        return found.address
    number = found.whole()
    return number % 2**32 if -2**31 <= number < 0 else number


class Expression:
    """The tokens of an expression, read from the front."""

    def __init__(self, tokens: list[str], scope: Scope) -> None:
        self._tokens, self._scope = tokens[::-1], scope

    def left(self) -> list[str]:
        """The tokens that are not read."""
        return self._tokens[::-1]

    def _next(self) -> str:
        if not self._tokens:
            raise NoValueError("a value is missing at the end")
        return self._tokens.pop()

    def _is_next(self, *tokens: str) -> bool:
        return bool(self._tokens) and self._tokens[-1] in tokens

    def _take(self, token: str) -> None:
        if not self._is_next(token):
            raise NoValueError(f"{token} is missing")
        self._tokens.pop()

    def level(self, number: int) -> Operand:
        """A value, of operators from a level on, which bind the closer the higher it is."""
        if number == len(LEVELS):
            return self._prefixed()
        found = self.level(number + 1)
        while self._is_next(*LEVELS[number]):
            op = self._next()
            found = computed(op, found, self.level(number + 1))
        return found

    def _prefixed(self) -> Operand:
        if self._is_next("-", "!", "~"):
            op = self._next()
            found = self._prefixed()
            real = found.real()
            if real is not None and op != "~":
                return of_real(-real) if op == "-" else Operand(int(not real))
            number = found.whole()
            return Operand({"-": -number, "~": ~number, "!": int(not number)}[op])
        if self._is_next("*"):
            self._next()
            return self._pointed(self._prefixed())
        if self._is_next("&"):
            self._next()
            return self._address(self._prefixed())
        kind = self._cast()
        if kind is not None:
            return self._as(kind, self._prefixed())
        return self._suffixed(self._primary())

    def _pointed(self, found: Operand) -> Operand:
        """What a pointer or an array points at; of a plain number the i32 there."""
        if isinstance(found.kind, c_types.Pointer):
            target = found.kind.to()
            if target.size == 0:
                raise NoValueError(f"what a {found.kind.name} points at has no type; a cast gives it one")
            return self._scope.at(found.whole(), target)
        if isinstance(found.kind, c_types.Array):
            return self._item(found, 0)
        there = self._scope.at(found.whole(), c_types.Number("i32", 4, is_signed=True))
        return Operand(there.number, value=Value(ValueType.I32, there.whole()))

    def _address(self, found: Operand) -> Operand:
        if found.address is None or found.kind is None:
            raise NoValueError("that has no address: it is not in memory")
        kind = found.kind
        pointer = c_types.Pointer(f"{kind.name} *", 4, lambda: kind)
        return Operand(found.address, pointer, found.address.to_bytes(4, "little"))

    def _cast(self) -> CType | None:
        """The type in parentheses that is next, if it is one."""
        if not self._is_next("("):
            return None
        words, at = [], len(self._tokens) - 2
        while at >= 0 and (self._tokens[at] == "*" or re.fullmatch(r"[A-Za-z_][\w:]*", self._tokens[at])):
            words.append(self._tokens[at])
            at -= 1
        if at < 0 or self._tokens[at] != ")" or not words or words[0] == "*":
            return None
        stars = len(words) - len([word for word in words if word != "*"])
        name = " ".join(word for word in words if word not in ("*", "const", "volatile"))
        kind = self._scope.type_named(name)
        if kind is None and (stars or words[0] in TYPE_WORDS):
            raise NoValueError(f"there is no type named {name}")
        if kind is None:
            return None
        del self._tokens[at:]
        for _ in range(stars):
            kind = pointer_to(kind)
        return kind

    def _as(self, kind: CType, found: Operand) -> Operand:
        """A value as another type has it."""
        real = found.real()
        if isinstance(kind, c_types.Float):
            return Operand(None, kind, kind.encoded(real if real is not None else found.whole()))
        if real is not None and not math.isfinite(real):
            raise NoValueError(f"{real} is no whole number")
        is_there = found.number is None and real is None and found.address is not None
        number = int(real) if real is not None else found.address if is_there else found.whole()
        assert number is not None
        data = (number % (1 << 8 * kind.size)).to_bytes(kind.size, "little")
        if kind.number(data) is None:
            raise NoValueError(f"a number cannot be a {kind.name}; *({kind.name} *) reads one from memory")
        return Operand(kind.number(data), kind, data)

    def _suffixed(self, found: Operand) -> Operand:
        while self._is_next(".", "->", "["):
            if self._next() == "[":
                index = self.level(0).whole()
                self._take("]")
                found = self._item(found, index)
            else:
                found = self._member(found, self._next())
        return found

    def _item(self, found: Operand, index: int) -> Operand:
        """An item of an array, or of what a pointer points at."""
        if isinstance(found.kind, c_types.Pointer):
            target = found.kind.to()
            if target.size == 0:
                raise NoValueError(f"what a {found.kind.name} points at has no size")
            return self._scope.at(found.whole() + index * target.size, target)
        if not isinstance(found.kind, c_types.Array):
            raise NoValueError(f"{found.kind.name if found.kind is not None else 'a number'} has no items")
        item = found.kind.item
        if found.address is not None:
            return self._scope.at(found.address + index * item.size, item)
        data = found.data[index * item.size:(index + 1) * item.size]
        if index < 0 or len(data) < item.size:
            raise NoValueError(f"there is no item {index}; there are {found.kind.count}")
        return Operand(item.number(data), item, data)

    def _member(self, found: Operand, name: str) -> Operand:
        """A member of a structure, or of one that is pointed at."""
        if isinstance(found.kind, c_types.Pointer):
            found = self._pointed(found)
        member = next((one for one in c_types.members_of(found.kind, found.data) if one.name in (name, f"__{name}")), None)
        if member is None:
            told = found.kind.name if found.kind is not None else "a number"
            raise NoValueError(f"{told} has no member named {name}")
        data = member.data(found.data)
        in_memory = found.address is not None and not member.bits
        return Operand(member.type.number(data), member.type, data,
                       found.address + member.offset if in_memory and found.address is not None else None)

    def _primary(self) -> Operand:
        word = self._next()
        if word == "(":
            found = self.level(0)
            self._take(")")
            return found
        if word[0].isdigit() and "." in word:
            return of_real(float(word))
        if word[0].isdigit():
            return Operand(int(word, 0) if word.startswith("0x") else int(word))
        if word[0] == "'":
            return Operand(ord(word[1]) if word[1] != "\\" else ESCAPES.get(word[2], ord(word[2])))
        if not re.match(r"[A-Za-z_$]", word):
            raise NoValueError(f"{word} is where a value has to be")
        return self._named(word)

    def _named(self, word: str) -> Operand:
        if word == "turn":
            return Operand(self._scope.turn)
        frame = self._scope.frame
        if word in ("local", "operand") and self._tokens and self._tokens[-1].isdigit():
            if frame is None:
                raise NoValueError("the task has ended, and has no frame")
            index = int(self._next())
            return self._local(frame, index) if word == "local" else of_value(picked(frame.operands, word, index))
        variable = self._scope.variable(word)
        if variable is not None:
            return of_variable(variable)
        for index in range(len(frame.locals) if frame is not None else 0):
            if frame is not None and self._scope.names.local(frame.func, index) == word.removeprefix("$"):
                return self._local(frame, index)
        ended = "; the task has ended, and has no frame" if frame is None else " in this frame"
        raise NoValueError(f"there is nothing named {word}{ended}")

    def _local(self, frame: Frame, index: int) -> Operand:
        """A local, which may be a float in the module as it was compiled."""
        value, kind = picked(frame.locals, "local", index), self._scope.float_local(frame.func, index)
        return of_value(value) if kind is None else Operand(None, kind, value.data())


def of_value(value: Value) -> Operand:
    return Operand(value.number, value=value)


def of_variable(variable: Found) -> Operand:
    """The value of a variable. Raises NoValueError if it has none here."""
    if variable.data is None:
        raise NoValueError(f"{variable.name} has no value here: {variable.text.strip('()')}")
    return Operand(variable.number, variable.kind, variable.data, variable.address)


def pointer_to(kind: CType) -> CType:
    return c_types.Pointer(f"{kind.name} *", 4, lambda: kind)


def picked(values: tuple[Value, ...], word: str, index: int) -> Value:
    """The local or the operand with a number."""
    if index >= len(values):
        raise NoValueError(f"there is no {word} {index}; this frame has {len(values)}")
    return values[index]


def computed(op: str, left: Operand, right: Operand) -> Operand:
    """What an operator makes of two values. Numbers have no largest one. A pointer goes by the size of what it points at,
    unless the other value is a local or an operand, which may be an address too."""
    if isinstance(left.kind, c_types.Array) and left.address is not None:
        left = Operand(left.address, pointer_to(left.kind.item))
    is_step = right.value is None and not isinstance(right.kind, c_types.Pointer)
    if op in ("+", "-") and isinstance(left.kind, c_types.Pointer) and is_step:
        step = max(1, left.kind.to().size)
        moved = (left.whole() + (1 if op == "+" else -1) * step * right.whole()) % 2**32
        return Operand(moved, left.kind, moved.to_bytes(4, "little"))
    if left.real() is not None or right.real() is not None:
        return of_floats(op, left, right)
    one, other = left.whole(), right.whole()
    if op in ("/", "%") and other == 0:
        raise NoValueError("a division by 0")
    return Operand(int(OPERATORS[op](one, other)))


def of_floats(op: str, left: Operand, right: Operand) -> Operand:
    """The same of two values of which one is a float. The other one becomes one, and the result is a double."""
    if op not in FLOAT_OPERATORS:
        raise NoValueError(f"{op} is no operator of floats")
    one, other = (float(side.whole()) if real is None else real for side, real in ((left, left.real()), (right, right.real())))
    if op == "/" and other == 0:
        raise NoValueError("a division by 0")
    try:
        found = FLOAT_OPERATORS[op](one, other)
    except OverflowError as error:
        raise NoValueError("the result is too large") from error
    return Operand(int(found)) if isinstance(found, bool) else of_real(found)


def of_real(number: float) -> Operand:
    """A double."""
    kind = c_types.REALS["double"]
    return Operand(None, kind, kind.encoded(number))


def quotient(left: int, right: int) -> int:
    """A quotient as C has it, towards 0."""
    return abs(left) // abs(right) * (1 if (left < 0) == (right < 0) else -1)


OPERATORS: dict[str, Callable[[int, int], int]] = {
    "+": lambda left, right: left + right, "-": lambda left, right: left - right, "*": lambda left, right: left * right,
    "/": quotient, "%": lambda left, right: left - right * quotient(left, right),
    "<<": lambda left, right: left << min(max(right, 0), 64), ">>": lambda left, right: left >> max(right, 0),
    "&": lambda left, right: left & right, "|": lambda left, right: left | right, "^": lambda left, right: left ^ right,
    "&&": lambda left, right: bool(left) and bool(right), "||": lambda left, right: bool(left) or bool(right),
    "==": lambda left, right: left == right, "!=": lambda left, right: left != right,
    "<": lambda left, right: left < right, ">": lambda left, right: left > right,
    "<=": lambda left, right: left <= right, ">=": lambda left, right: left >= right}
FLOAT_OPERATORS: dict[str, Callable[[float, float], float | bool]] = {
    "+": lambda left, right: left + right, "-": lambda left, right: left - right, "*": lambda left, right: left * right,
    "/": lambda left, right: left / right, "&&": lambda left, right: bool(left) and bool(right),
    "||": lambda left, right: bool(left) or bool(right), "==": lambda left, right: left == right,
    "!=": lambda left, right: left != right, "<": lambda left, right: left < right, ">": lambda left, right: left > right,
    "<=": lambda left, right: left <= right, ">=": lambda left, right: left >= right}
