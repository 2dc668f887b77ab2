"""Names of functions and locals, from the custom section `name`, or from exports and imports."""
from __future__ import annotations

from dataclasses import dataclass, field

from feulgama.wasm.module import Module
from feulgama.wasm.reader import NotAModuleError, Reader

FUNCTIONS, LOCALS = 1, 2


@dataclass(slots=True)
class Names:
    """Names by index: of functions, and of the locals of each function."""
    functions: dict[int, str] = field(default_factory=dict)
    locals: dict[int, dict[int, str]] = field(default_factory=dict)

    def function(self, index: int) -> str:
        """What a function is called; its index as a word if it has no name."""
        return self.functions.get(index, f"func{index}")

    def local(self, func: int, index: int) -> str | None:
        """What a local of a function is called."""
        return self.locals.get(func, {}).get(index)

    def named(self, name: str) -> list[int]:
        """The functions of a name: those that have it; or of which it is the name without types of parameters; or its
        last part, as `total` of `prog::total`."""
        plain = {index: other.partition("(")[0] for index, other in self.functions.items()}
        for found in ([index for index, other in self.functions.items() if other == name],
                      [index for index, other in plain.items() if other == name],
                      [index for index, other in plain.items() if other.endswith("::" + name)]):
            if found:
                return found
        return []

    def demangle(self, known: dict[str, str]) -> None:
        """Gives functions the names that were written for them."""
        self.functions = {index: known.get(name, name) for index, name in self.functions.items()}


def names_of(module: Module) -> Names:
    """The names of a module. A section `name` that has a fault is read up to the fault."""
    names = Names()
    for index, (_, name, _) in enumerate(module.imports):
        names.functions[index] = name
    for name, index in module.exports.items():
        names.functions[index] = name
    reader = Reader(module.customs.get("name", b""))
    try:
        while not reader.is_at_end():
            number = reader.byte()
            read_names(names, number, reader.part())
    except NotAModuleError:
        pass
    return names


def read_names(names: Names, number: int, part: Reader) -> None:
    if number == FUNCTIONS:
        names.functions |= name_map(part)
    elif number == LOCALS:
        for _ in range(part.unsigned()):
            index = part.unsigned()
            names.locals[index] = {at: name for at, name in name_map(part).items() if name}


def name_map(part: Reader) -> dict[int, str]:
    found: dict[int, str] = {}
    for _ in range(part.unsigned()):
        index = part.unsigned()
        found[index] = part.name()
    return found
