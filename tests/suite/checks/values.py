"""Which code of a source makes no value: clauses, declarations, signatures, and what is matched on; and under which condition
a value is made.

It is told by keywords and brackets. What is not found to be one of these counts as a value.
"""
from __future__ import annotations

import re
from collections.abc import Iterator
from dataclasses import dataclass

# Comments, strings and characters, and imports, which may have several lines.
BLANK = re.compile(r"//[^\n]*|\br(?P<raw>#+)\".*?\"(?P=raw)|\"(?:\\.|[^\"\\])*\"|'(?:\\.|[^'\\])'|\buse\s[^;]*;", re.DOTALL)
RENAMED = re.compile(r"(\w+)\s+as\s+\w")
CLAUSE = re.compile(r"\b(?:requires|ensures)\b\*?\s*\w*\s*\{|\bghost\s+\w+\s*[:=]\s*\{")
OPENS, CLOSES = "([{", ")]}"
BRACKET, SIGN = re.compile(r"[][(){}]"), re.compile(r"[][(){},;]|=>")


def or_bracket(end: str) -> re.Pattern[str]:
    return re.compile(rf"(?P<end>{end})|[][(){{}}]")


# What begins code without a value, and what ends it. A signature has no brace before its body, since clauses are blank.
SIGNATURE = (re.compile(r"\bfn\s+\w|\bimpl\b"), or_bracket(r"[{;]"))
KINDS = [(re.compile(r"\blet\b"), or_bracket(r"(?<![=!<>])=(?![=>])|;")),
         (re.compile(r"\b(?:const|static)\s+\w+\s*(?=:)"), or_bracket(":")),
         SIGNATURE,
         (re.compile(r"\b(?:enum|struct)\s+\w"), or_bracket(r"(?<=\})|;"))]
MATCHES, COMMA = re.compile(r"\bmatches!\("), or_bracket(",")
GUARD, PATTERN_END = or_bracket(r"\bif\b"), or_bracket(r"=>|\bif\b")
# What follows a block, or the braces of a pattern, that the same statement or arm goes on after.
GOES_ON = re.compile(r"\s*(?:else\b|[=.?)&|])|[ ]*if\b")
ARROW, ARM_ENDS = or_bracket("=>"), ",;"
# What a block begins with that is under a condition.
CONDITION = re.compile(r"\b(?:if|else|match|while|for)\b|=>")
# What stands before the bracket of a macro, where an arrow may mean anything.
MACRO = re.compile(r"\w!\s*\w*\s*\Z")


def blank(text: str) -> str:
    """As many blanks, in as many lines."""
    return re.sub(r"[^\n]", " ", text)


def blanked(text: str) -> str:
    """The code of a file, column by column: what is no code is blank."""
    return BLANK.sub(lambda match: blank(match.group()), text)


def renamed(text: str) -> Iterator[tuple[int, str]]:
    """Where an import of a file gives a thing another name, and the name that the thing has."""
    for match in BLANK.finditer(text):
        if match.group().startswith("use"):
            for name in RENAMED.finditer(match.group()):
                yield match.start() + name.start(), name[1]


def partners(code: str) -> dict[int, int]:
    """The place of the other bracket, for each bracket that has one."""
    found: dict[int, int] = {}
    opened: list[int] = []
    for match in BRACKET.finditer(code):
        at, sign = match.start(), match.group()
        if sign in OPENS:
            opened.append(at)
        elif opened and OPENS.index(code[opened[-1]]) == CLOSES.index(sign):
            begin = opened.pop()
            found[begin], found[at] = at, begin
    return found


@dataclass
class Level:
    """What is in brackets: the place of the first bracket, where a pattern may begin, and whether a block may end an arm."""
    bracket: int
    begin: int
    in_arm: bool = False


class Source:
    """The code of a file. Its clauses are blank too."""

    def __init__(self, text: str) -> None:
        code = blanked(text)
        self.partner = partners(code)
        parts, at = [], 0
        for match in CLAUSE.finditer(code):
            end = self.partner.get(match.end() - 1, match.start()) + 1
            parts += [code[at:match.start()], blank(code[match.start():end])]
            at = end
        self.code = "".join([*parts, code[at:]])
        kind, ends = SIGNATURE
        self.bodies = {self.end(match.end(), ends) for match in kind.finditer(self.code)}

    def end(self, at: int, ends: re.Pattern[str]) -> int:
        """The first place from here on where one of these ends is, or the bracket that closes what is around. What is between
        brackets after here is passed over."""
        while match := ends.search(self.code, at):
            if match["end"] is not None or match.group() in CLOSES:
                return match.start()
            at = self.partner.get(match.start(), match.start()) + 1
        return len(self.code)

    def has_arms(self, bracket: int) -> bool:
        """Whether arrows after this bracket are those of arms: it is a brace, and that of no macro."""
        return self.code[bracket] == "{" and not MACRO.search(self.code, max(0, bracket - 80), bracket)

    def patterns(self) -> Iterator[int]:
        """Where the pattern of each arm begins: after the comma, or the block, that ends the arm before it."""
        levels = [Level(0, 0)]
        for match in SIGN.finditer(self.code):
            at, sign, level = match.start(), match.group(), levels[-1]
            if sign == "=>":
                if self.has_arms(level.bracket):
                    yield level.begin
                level.begin, level.in_arm = at + 2, True
            elif sign in ",;":
                level.begin, level.in_arm = at + 1, False
            elif at in self.partner and sign in OPENS:
                levels.append(Level(at, at + 1))
            elif at in self.partner:
                levels.pop()
                if sign == "}" and levels[-1].in_arm:
                    levels[-1].begin = at + 1

    def stretches(self) -> Iterator[tuple[int, int]]:
        """Where code that makes no value begins, and where it ends."""
        for kind, ends in KINDS:
            for match in kind.finditer(self.code):
                yield match.start(), self.end(match.end(), ends)
        for match in MATCHES.finditer(self.code):
            comma = self.end(match.end(), COMMA)
            yield comma, self.end(comma, GUARD)
        for begin in self.patterns():
            yield begin, self.end(begin, PATTERN_END)

    def bracket(self, at: int) -> int | None:
        """The bracket around a place, the one that opens."""
        while at > 0:
            at -= 1
            if self.code[at] in CLOSES:
                at = self.partner.get(at, at)
            elif self.code[at] in OPENS and at in self.partner:
                return at
        return None

    def begin(self, at: int) -> int:
        """Where the statement or the arm that a place is in begins. Braces are all around it, and no other brackets."""
        while at > 0:
            sign = self.code[at - 1]
            if sign in ARM_ENDS or sign == "{" or (sign == "}" and not GOES_ON.match(self.code, at)):
                break
            at = self.partner.get(at - 1, at - 1) if sign in CLOSES else at - 1
        return at + len(self.code[at:]) - len(self.code[at:].lstrip())

    def condition(self, at: int) -> tuple[int, int] | None:
        """Where the condition begins and ends under which a value is made at a place: the pattern of its arm, or what the
        block around it begins with. None if that is a function's."""
        bracket = self.bracket(at)
        while bracket is not None:
            if self.code[bracket] == "{":
                begin = self.begin(at)
                arrow = self.end(begin, ARROW)
                if arrow < at:
                    return begin, arrow + 2
                begin = self.begin(bracket)
                if bracket in self.bodies:
                    return None
                if CONDITION.search(self.code, begin, bracket):
                    return begin, bracket + 1
            at, bracket = bracket, self.bracket(bracket)
        return None
