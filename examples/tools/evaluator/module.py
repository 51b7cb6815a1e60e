# SPDX-License-Identifier: Apache-2.0
"""A module's sections (WebAssembly Core 1.0, 5.5): what is there, and where it stands in the file.

`read` takes modules that the program accepts, and `read_as_far_as` also those that it refuses: of each section it has what could be read.
"""
from __future__ import annotations

import dataclasses
from typing import Callable, NamedTuple

from . import opcodes

FUNCTION, TABLE, MEMORY, GLOBAL = range(4)
KINDS = ("function", "table", "memory", "global")
NAME_SECTION = "name"


class Malformed(Exception):
    """What stands there can't be read."""

    def __init__(self, what: str, place: int) -> None:
        super().__init__(f"{what} at {place:#x}")
        self.place = place


class Reader:
    """Bytes from a place on, up to an end."""

    def __init__(self, data: bytes, at: int = 0, end: int | None = None) -> None:
        self.data, self.at, self.end = data, at, len(data) if end is None else min(end, len(data))

    def is_done(self) -> bool:
        return self.at >= self.end

    def byte(self) -> int:
        if self.at >= self.end:
            raise Malformed("the bytes end", self.at)
        self.at += 1
        return self.data[self.at - 1]

    def take(self, count: int) -> bytes:
        if count > self.end - self.at:
            raise Malformed("the bytes end", self.at)
        self.at += count
        return self.data[self.at - count:self.at]

    def unsigned(self) -> int:
        """A number without sign (5.2.2)."""
        return self._number()[0]

    def signed(self) -> int:
        """A number in two's complement."""
        value, bits, last = self._number()
        return value - (1 << bits) if last & 0x40 else value

    def _number(self) -> tuple[int, int, int]:
        value = bits = 0
        while bits < 70:
            byte = self.byte()
            value |= (byte & 0x7f) << bits
            bits += 7
            if not byte & 0x80:
                return value, bits, byte
        raise Malformed("a number is too long", self.at)

    def text(self) -> str:
        return self.take(self.unsigned()).decode(errors="replace")

    def constant(self) -> tuple[int, int] | None:
        """The type and the value of an expression that is one constant, else none."""
        opcode, value = self.byte(), 0
        if opcode in (opcodes.I32_CONST, opcodes.I64_CONST):
            value = self.signed()
        else:
            self.immediates(opcode)
        is_one = self.byte() == opcodes.END
        if opcode == opcodes.I32_CONST and is_one:
            return opcodes.I32, value & 2**32 - 1
        if opcode == opcodes.I64_CONST and is_one:
            return opcodes.I64, value & 2**64 - 1
        return None

    def immediates(self, opcode: int) -> None:
        """Passes what stands behind an opcode."""
        known = opcodes.INSTRUCTIONS.get(opcode)
        if known is None:
            raise Malformed(f"opcode {opcode:#x}", self.at - 1)
        for kind in known.immediates:
            if kind in "xz":
                self.unsigned()
            elif kind in "bil":
                self.signed()
            elif kind == "m":
                self.unsigned()
                self.unsigned()
            elif kind == "t":
                for _ in range(self.unsigned() + 1):
                    self.unsigned()
            else:
                self.take({"f": 4, "d": 8}[kind])


class FunctionType(NamedTuple):
    """Parameters and results, a byte each."""

    parameters: bytes
    results: bytes

    def __str__(self) -> str:
        def named(types: bytes) -> str:
            return ", ".join(opcodes.VALUE_TYPES.get(it, f"{it:#x}") for it in types)
        return f"({named(self.parameters)}) -> {named(self.results) or 'nothing'}"


class Limits(NamedTuple):
    """A size at first, and the most that it may become."""

    least: int
    most: int | None


class Import(NamedTuple):
    """What another is to give, and where the entry stands. A function has its type's index."""

    module: str
    name: str
    kind: int
    type: int | None
    place: int


class Export(NamedTuple):
    """A name, and what it stands for."""

    name: str
    kind: int
    item: int


class Global(NamedTuple):
    """Its first value is none where that is no constant of integers."""

    type: int
    is_mutable: bool
    first: tuple[int, int] | None


class Elements(NamedTuple):
    """What is written into the table at first."""

    offset: tuple[int, int] | None
    functions: list[int]


class Data(NamedTuple):
    """What is written into the memory at first."""

    offset: tuple[int, int] | None
    data: bytes


class Body(NamedTuple):
    """Runs of locals, and where the instructions begin and end."""

    locals: list[tuple[int, int]]
    start: int
    end: int


class Section(NamedTuple):
    """A section's number, where that stands, and its contents; a custom one's name, behind which `start` is then."""

    number: int
    place: int
    start: int
    end: int
    name: str


@dataclasses.dataclass
class Module:
    """All that stands in a module. `own` has a type's index for each function that has a body here."""

    data: bytes
    sections: list[Section] = dataclasses.field(default_factory=list)
    types: list[FunctionType] = dataclasses.field(default_factory=list)
    imports: list[Import] = dataclasses.field(default_factory=list)
    own: list[int] = dataclasses.field(default_factory=list)
    tables: list[Limits] = dataclasses.field(default_factory=list)
    memories: list[Limits] = dataclasses.field(default_factory=list)
    globals: list[Global] = dataclasses.field(default_factory=list)
    exports: list[Export] = dataclasses.field(default_factory=list)
    start: int | None = None
    elements: list[Elements] = dataclasses.field(default_factory=list)
    bodies: list[Body] = dataclasses.field(default_factory=list)
    segments: list[Data] = dataclasses.field(default_factory=list)

    @property
    def functions(self) -> list[int]:
        """The type's index of each function, imported ones first."""
        return [it.type for it in self.imports if it.kind == FUNCTION and it.type is not None] + self.own

    @property
    def hosts(self) -> list[Import]:
        """The functions that are imported."""
        return [it for it in self.imports if it.kind == FUNCTION]

    def type_of(self, function: int) -> FunctionType | None:
        """None where an index names nothing."""
        functions = self.functions
        return self.types[functions[function]] if function < len(functions) and functions[function] < len(self.types) else None

    def body_of(self, function: int) -> Body | None:
        own = function - len(self.hosts)
        return self.bodies[own] if 0 <= own < len(self.bodies) else None

    def at(self, place: int) -> int | None:
        """The function in whose body a place is."""
        for own, body in enumerate(self.bodies):
            if body.start <= place < body.end:
                return own + len(self.hosts)
        return None

    def custom(self, name: str) -> bytes | None:
        """The contents of the first custom section of a name."""
        return next((self.data[it.start:it.end] for it in self.sections if it.number == 0 and it.name == name), None)


def read(data: bytes) -> Module:
    """A module that the program accepts."""
    found, fault = _read(data)
    if fault:
        raise fault
    return found


def read_as_far_as(data: bytes) -> Module:
    """What can be read of a module that the program refuses."""
    return _read(data)[0]


def _read(data: bytes) -> tuple[Module, Malformed | None]:
    module, fault = Module(data), None
    reader = Reader(data, 8)
    try:
        while not reader.is_done():
            place, number = reader.at, reader.byte()
            size = reader.unsigned()
            inner = Reader(data, reader.at, reader.at + size)
            reader.at += size
            try:
                name = inner.text() if number == 0 else ""
                module.sections.append(Section(number, place, inner.at, inner.end, name))
                _CONTENTS.get(number, lambda _module, _reader: None)(module, inner)
            except Malformed as why:
                fault = fault or why
    except Malformed as why:
        fault = fault or why
    return module, fault


def _types(module: Module, reader: Reader) -> None:
    for _ in range(reader.unsigned()):
        if reader.byte() != 0x60:
            raise Malformed("no function's type", reader.at - 1)
        parameters = reader.take(reader.unsigned())
        module.types.append(FunctionType(parameters, reader.take(reader.unsigned())))


def _limits(reader: Reader) -> Limits:
    has_most = reader.byte() & 1
    least = reader.unsigned()
    return Limits(least, reader.unsigned() if has_most else None)


def _imports(module: Module, reader: Reader) -> None:
    for _ in range(reader.unsigned()):
        place = reader.at
        source, name, kind, type_index = reader.text(), reader.text(), reader.byte(), None
        if kind == FUNCTION:
            type_index = reader.unsigned()
        elif kind == TABLE:
            reader.byte()
            _limits(reader)
        elif kind == MEMORY:
            _limits(reader)
        elif kind == GLOBAL:
            reader.take(2)
        else:
            raise Malformed("an import of no known kind", place)
        module.imports.append(Import(source, name, kind, type_index, place))


def _own(module: Module, reader: Reader) -> None:
    module.own += [reader.unsigned() for _ in range(reader.unsigned())]


def _tables(module: Module, reader: Reader) -> None:
    for _ in range(reader.unsigned()):
        reader.byte()
        module.tables.append(_limits(reader))


def _memories(module: Module, reader: Reader) -> None:
    for _ in range(reader.unsigned()):
        module.memories.append(_limits(reader))


def _globals(module: Module, reader: Reader) -> None:
    for _ in range(reader.unsigned()):
        kind, is_mutable = reader.byte(), reader.byte() == 1
        module.globals.append(Global(kind, is_mutable, reader.constant()))


def _exports(module: Module, reader: Reader) -> None:
    for _ in range(reader.unsigned()):
        module.exports.append(Export(reader.text(), reader.byte(), reader.unsigned()))


def _start(module: Module, reader: Reader) -> None:
    module.start = reader.unsigned()


def _elements(module: Module, reader: Reader) -> None:
    for _ in range(reader.unsigned()):
        reader.unsigned()
        offset = reader.constant()
        module.elements.append(Elements(offset, [reader.unsigned() for _ in range(reader.unsigned())]))


def _bodies(module: Module, reader: Reader) -> None:
    for _ in range(reader.unsigned()):
        size = reader.unsigned()
        inner = Reader(reader.data, reader.at, reader.at + size)
        reader.at += size
        runs = [(inner.unsigned(), inner.byte()) for _ in range(inner.unsigned())]
        module.bodies.append(Body(runs, inner.at, inner.end))


def _data(module: Module, reader: Reader) -> None:
    for _ in range(reader.unsigned()):
        reader.unsigned()
        offset = reader.constant()
        module.segments.append(Data(offset, reader.take(reader.unsigned())))


_CONTENTS: dict[int, Callable[[Module, Reader], None]] = {
    1: _types, 2: _imports, 3: _own, 4: _tables, 5: _memories, 6: _globals, 7: _exports, 8: _start, 9: _elements, 10: _bodies, 11: _data}


def function_names(module: Module) -> dict[int, str]:
    """What each function is called: by the section of names, or as it is imported or exported."""
    found = {k: f"{it.module}.{it.name}" for k, it in enumerate(module.hosts)}
    found |= {it.item: it.name for it in reversed(module.exports) if it.kind == FUNCTION}
    section = module.custom(NAME_SECTION)
    if section is None:
        return found
    reader = Reader(section)
    try:
        while not reader.is_done():
            kind, size = reader.byte(), reader.unsigned()
            inner = Reader(section, reader.at, reader.at + size)
            reader.at += size
            if kind == 1:
                found |= {inner.unsigned(): inner.text() for _ in range(inner.unsigned())}
    except Malformed:
        pass
    return found
