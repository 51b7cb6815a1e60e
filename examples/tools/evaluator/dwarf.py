# SPDX-License-Identifier: Apache-2.0
"""What a compiler says of a module's code where it was asked to (-g): DWARF 4 and 5, as far as functions, inlined calls and variables go.

Addresses of code count from the contents of the code section on. Of code that the linker left out the address is 0 or next to 2^32.
"""
from __future__ import annotations

import dataclasses
import functools
from typing import Callable, Iterator, NamedTuple, Union

from .module import Malformed, Module, Reader

LEFT_OUT = 0xffff_fffe
# Tags and attributes (DWARF 5, 7.5.3 and 7.5.4).
ARRAY, ENUMERATION, POINTER, UNIT, STRUCTURE, TYPEDEF, UNION, INLINED, SUBRANGE = 0x01, 0x04, 0x0f, 0x11, 0x13, 0x16, 0x17, 0x1d, 0x21
BASE, CONSTANT, SUBPROGRAM, VARIABLE, VOLATILE, NAMESPACE = 0x24, 0x26, 0x2e, 0x34, 0x35, 0x39
LOCATION, NAME, SIZE, LINES, LOW, HIGH, FOLDER, UPPER, ORIGIN, COUNT = 0x02, 0x03, 0x0b, 0x10, 0x11, 0x12, 0x1b, 0x2f, 0x31, 0x37
SPECIFICATION, TYPE, RANGES, CALL_FILE, CALL_LINE, STR_BASE, ADDR_BASE, RNG_BASE = 0x47, 0x49, 0x55, 0x58, 0x59, 0x72, 0x73, 0x74
Value = Union[int, str, bytes]


class Span(NamedTuple):
    """Addresses from one to just before another."""

    low: int
    high: int


class Line(NamedTuple):
    """A line of a source file."""

    file: str
    line: int

    def __str__(self) -> str:
        return f"{self.file.rsplit('/', maxsplit=1)[-1]}:{self.line}"


class Scope(NamedTuple):
    """A function's own code or that of a call that was inlined, which lies deeper; where it was called, if it was inlined."""

    spans: list[Span]
    name: str
    depth: int
    called: Line | None


class Variable(NamedTuple):
    """One that has an address of its own."""

    name: str
    address: int
    size: int


@dataclasses.dataclass
class Debug:
    """All that was read, in the order of the addresses; `lines` has where each begins."""

    lines: list[tuple[int, Line | None]] = dataclasses.field(default_factory=list)
    scopes: list[Scope] = dataclasses.field(default_factory=list)
    variables: list[Variable] = dataclasses.field(default_factory=list)

    def line_at(self, address: int) -> Line | None:
        """By halving: the last that begins at or before it."""
        low, high = 0, len(self.lines)
        while low < high:
            middle = (low + high) // 2
            low, high = (middle + 1, high) if self.lines[middle][0] <= address else (low, middle)
        return self.lines[low - 1][1] if low else None

    def scopes_at(self, address: int) -> list[Scope]:
        """The innermost first."""
        return sorted((it for it in self.scopes if any(span.low <= address < span.high for span in it.spans)), key=lambda it: -it.depth)


class _Entry(NamedTuple):
    """A debugging information entry: where it stands, how deep, its tag, and its attributes."""

    at: int
    depth: int
    tag: int
    attributes: dict[int, Value]

    def number(self, attribute: int) -> int | None:
        found = self.attributes.get(attribute)
        return found if isinstance(found, int) else None

    def text(self, attribute: int) -> str:
        found = self.attributes.get(attribute)
        return found if isinstance(found, str) else ""


class _Abbreviation(NamedTuple):
    """A tag, whether there are children, and each attribute with its form and, for an implicit constant, its value."""

    tag: int
    has_children: bool
    attributes: list[tuple[int, int, int]]


class _Sections:
    """The custom sections that a debugger reads."""

    def __init__(self, module: Module) -> None:
        self._module = module

    def reader(self, name: str, at: int = 0, end: int | None = None) -> Reader:
        return Reader(self._module.custom(f".debug_{name}") or b"", at, end)

    def text(self, name: str, at: int) -> str:
        data = self._module.custom(f".debug_{name}") or b""
        return data[at:data.index(b"\0", at)].decode(errors="replace") if b"\0" in data[at:] else ""


def fixed(reader: Reader, width: int) -> int:
    """A number of so many bytes."""
    return int.from_bytes(reader.take(width), "little")


def _until_zero(reader: Reader) -> str:
    found = bytearray()
    while byte := reader.byte():
        found.append(byte)
    return found.decode(errors="replace")


def _length(reader: Reader) -> tuple[int, int]:
    """How many bytes follow, and the width of an offset."""
    length = fixed(reader, 4)
    return (fixed(reader, 8), 8) if length == 0xffff_ffff else (length, 4)


class _Form:
    """Reads values by their forms (7.5.6), for a unit of one version and width."""

    WIDTHS = {0x0b: 1, 0x05: 2, 0x06: 4, 0x07: 8, 0x0c: 1, 0x11: 1, 0x12: 2, 0x13: 4, 0x14: 8, 0x1e: 16, 0x20: 8,
              0x25: 1, 0x26: 2, 0x27: 3, 0x28: 4, 0x29: 1, 0x2a: 2, 0x2b: 3, 0x2c: 4}

    def __init__(self, sections: _Sections, width: int, address: int = 4) -> None:
        self.sections, self.width, self.address = sections, width, address

    def read(self, reader: Reader, form: int, implicit: int) -> Value:
        known: dict[int, Callable[[], Value]] = {
            0x01: lambda: fixed(reader, self.address), 0x08: lambda: _until_zero(reader), 0x0d: reader.signed, 0x19: lambda: 1, 0x21: lambda: implicit,
            0x0e: lambda: self.sections.text("str", fixed(reader, self.width)), 0x1f: lambda: self.sections.text("line_str", fixed(reader, self.width)),
            **dict.fromkeys((0x0f, 0x15, 0x1a, 0x1b, 0x22, 0x23), reader.unsigned), **dict.fromkeys((0x10, 0x17), lambda: fixed(reader, self.width)),
            **dict.fromkeys((0x09, 0x18), lambda: reader.take(reader.unsigned())),
            **{block: functools.partial(_block, reader, width) for block, width in ((0x0a, 1), (0x03, 2), (0x04, 4))}}
        if form in self.WIDTHS:
            return fixed(reader, self.WIDTHS[form])
        if form not in known:
            raise Malformed(f"form {form:#x}", reader.at)
        return known[form]()


def _block(reader: Reader, width: int) -> bytes:
    """Bytes behind their number."""
    return reader.take(fixed(reader, width))


def _abbreviations(reader: Reader) -> dict[int, _Abbreviation]:
    found = {}
    while code := reader.unsigned():
        tag, has_children, attributes = reader.unsigned(), reader.byte() == 1, []
        while True:
            attribute, form = reader.unsigned(), reader.unsigned()
            implicit = reader.signed() if form == 0x21 else 0
            if not attribute and not form:
                break
            attributes.append((attribute, form, implicit))
        found[code] = _Abbreviation(tag, has_children, attributes)
    return found


class _Unit:
    """A unit of .debug_info: its entries, and what their values mean."""

    def __init__(self, sections: _Sections, reader: Reader) -> None:
        self.sections, self.at = sections, reader.at
        length, width = _length(reader)
        self.end, self.width = reader.at + length, width
        self.version = fixed(reader, 2)
        self.kind = reader.byte() if self.version >= 5 else 1
        if self.version >= 5:
            self.address = reader.byte()
        abbreviations = _abbreviations(sections.reader("abbrev", fixed(reader, width)))
        if self.version < 5:
            self.address = reader.byte()
        self.entries: dict[int, _Entry] = {}
        self.indices: dict[tuple[int, int], int] = {}
        if self.kind == 1 and 4 <= self.version <= 5:
            self._read(Reader(reader.data, reader.at, self.end), abbreviations)
        reader.at = self.end
        self.root = next(iter(self.entries.values()), _Entry(self.at, 0, 0, {}))

    def _read(self, reader: Reader, abbreviations: dict[int, _Abbreviation]) -> None:
        form_of, depth = _Form(self.sections, self.width, self.address), 0
        while not reader.is_done():
            at, code = reader.at, reader.unsigned()
            if not code:
                depth -= 1
                continue
            kind = abbreviations[code]
            attributes = {}
            for attribute, form, implicit in kind.attributes:
                value = form_of.read(reader, form, implicit)
                if 0x11 <= form <= 0x15 and isinstance(value, int):
                    value += self.at
                if form in (0x1a, 0x1b, 0x23, *range(0x25, 0x2d)):
                    self.indices[at, attribute] = form
                attributes[attribute] = value
            self.entries[at] = _Entry(at, depth, kind.tag, attributes)
            depth += kind.has_children

    def name(self, entry: _Entry) -> str:
        """Its own, or that of what it comes from."""
        if (entry.at, NAME) in self.indices:
            base = self.root.number(STR_BASE) or 8
            offset = fixed(self.sections.reader("str_offsets", base + self.width * (entry.number(NAME) or 0)), self.width)
            return self.sections.text("str", offset)
        for attribute in (ORIGIN, SPECIFICATION):
            origin = self.entries.get(entry.number(attribute) or -1)
            if origin is not None and not entry.text(NAME):
                return self.name(origin)
        return entry.text(NAME)

    def address_of(self, entry: _Entry, attribute: int) -> int:
        value = entry.number(attribute) or 0
        return self._indexed(value) if self.indices.get((entry.at, attribute)) in (0x1b, *range(0x29, 0x2d)) else value

    def _indexed(self, index: int) -> int:
        return fixed(self.sections.reader("addr", (self.root.number(ADDR_BASE) or 8) + self.address * index), self.address)

    def indexed_location(self, location: bytes) -> int:
        """Of DW_OP_addrx."""
        return self._indexed(Reader(location, 1).unsigned())

    def spans(self, entry: _Entry) -> list[Span]:
        """The code of an entry, without what the linker left out."""
        ranges = entry.number(RANGES)
        if ranges is not None:
            found = [*(self._lists(entry, ranges) if self.version >= 5 else self._pairs(ranges))]
        else:
            low, high = self.address_of(entry, LOW), entry.number(HIGH) or 0
            found = [Span(low, low + high)]
        return [it for it in found if 0 < it.low < it.high < LEFT_OUT]

    def _pairs(self, at: int) -> Iterator[Span]:
        """.debug_ranges (DWARF 4, 2.17.3)."""
        reader, base = self.sections.reader("ranges", at), self.address_of(self.root, LOW)
        while True:
            low, high = fixed(reader, self.address), fixed(reader, self.address)
            if low == high == 0:
                return
            if low == (1 << 8 * self.address) - 1:
                base = high
            elif low < LEFT_OUT:
                yield Span(base + low, base + high)

    def _lists(self, entry: _Entry, at: int) -> Iterator[Span]:
        """.debug_rnglists (DWARF 5, 7.25)."""
        if self.indices.get((entry.at, RANGES)) == 0x23:
            first = self.root.number(RNG_BASE) or 12
            at = first + fixed(self.sections.reader("rnglists", first + self.width * at), self.width)
        reader, base = self.sections.reader("rnglists", at), self.address_of(self.root, LOW)
        while kind := reader.byte():
            if kind == 1:
                base = self._indexed(reader.unsigned())
            elif kind in (2, 3):
                low, second = self._indexed(reader.unsigned()), reader.unsigned()
                yield Span(low, self._indexed(second) if kind == 2 else low + second)
            elif kind == 4:
                low, high = reader.unsigned(), reader.unsigned()
                yield Span(base + low, base + high)
            elif kind == 5:
                base = fixed(reader, self.address)
            else:
                low, second = fixed(reader, self.address), fixed(reader, self.address) if kind == 6 else reader.unsigned()
                yield Span(low, second if kind == 6 else low + second)

    def size(self, entry: _Entry | None) -> int:
        """How many bytes a value of a type has."""
        if entry is None:
            return 0
        own, of = entry.number(SIZE), self.entries.get(entry.number(TYPE) or -1)
        if own is not None:
            return own
        if entry.tag == POINTER:
            return self.address
        if entry.tag != ARRAY:
            return self.size(of)
        size = self.size(of)
        for it in self.children(entry):
            upper = it.number(UPPER)
            size *= it.number(COUNT) or (upper + 1 if upper is not None else 0)
        return size

    def children(self, entry: _Entry) -> Iterator[_Entry]:
        for it in self.entries.values():
            if it.at > entry.at:
                if it.depth <= entry.depth:
                    return
                if it.depth == entry.depth + 1:
                    yield it


@dataclasses.dataclass
class _Row:
    """Where the program of lines stands."""

    address: int = 0
    file: int = 1
    line: int = 1


class _Lines:
    """A unit's program of lines (DWARF 5, 6.2), read as it is run."""

    def __init__(self, sections: _Sections, at: int, folder: str, name: str) -> None:
        self.sections, self.rows = sections, list[tuple[int, Line | None]]()
        reader = sections.reader("line", at)
        length, width = _length(reader)
        reader.end = min(reader.end, reader.at + length)
        version = fixed(reader, 2)
        if version >= 5:
            reader.take(2)
        header = fixed(reader, width)
        start = reader.at + header
        self.shortest = reader.byte()
        if version >= 4:
            reader.byte()
        reader.byte()
        self.base, self.span, self.first_special = int.from_bytes(reader.take(1), "little", signed=True), reader.byte(), reader.byte()
        self.operands = list(reader.take(self.first_special - 1))
        self.files = self._files_5(reader, width, folder) if version >= 5 else [_joined(folder, name), *self._files_4(reader, folder)]
        self._run(Reader(reader.data, start, reader.end))

    def _files_4(self, reader: Reader, folder: str) -> Iterator[str]:
        folders = [folder]
        while it := _until_zero(reader):
            folders.append(_joined(folder, it))
        while it := _until_zero(reader):
            yield _joined(folders[min(reader.unsigned(), len(folders) - 1)], it)
            reader.unsigned()
            reader.unsigned()

    def _files_5(self, reader: Reader, width: int, folder: str) -> list[str]:
        folders = [_joined(folder, it) for it, _ in self._listed(reader, width)]
        return [_joined(folders[at] if at < len(folders) else folder, it) for it, at in self._listed(reader, width)]

    def _listed(self, reader: Reader, width: int) -> list[tuple[str, int]]:
        """Names, and the index of the folder of each."""
        kinds = [(reader.unsigned(), reader.unsigned()) for _ in range(reader.byte())]
        form_of, found = _Form(self.sections, width), []
        for _ in range(reader.unsigned()):
            values = {kind: form_of.read(reader, form, 0) for kind, form in kinds}
            name, at = values.get(1, ""), values.get(2, 0)
            found.append((name if isinstance(name, str) else "", at if isinstance(at, int) else 0))
        return found

    def _run(self, reader: Reader) -> None:
        rows: list[tuple[int, Line | None]] = []
        state = _Row()
        while not reader.is_done():
            code = reader.byte()
            if code == 0:
                size = reader.unsigned()
                inner = Reader(reader.data, reader.at, reader.at + size)
                reader.at += size
                sub = inner.byte()
                if sub == 2:
                    state.address = fixed(inner, size - 1)
                elif sub == 1:
                    self.rows += [*rows, (state.address, None)] if rows and 0 < rows[0][0] < LEFT_OUT else []
                    state, rows = _Row(), []
            elif self._advance(reader, code, state):
                # (line 0 is code that belongs to no line)
                known = state.line and state.file < len(self.files)
                rows.append((state.address, Line(self.files[state.file], state.line) if known else None))

    def _advance(self, reader: Reader, code: int, state: _Row) -> bool:
        """A standard or special opcode; whether it makes a row."""
        if code >= self.first_special:
            state.address += (code - self.first_special) // self.span * self.shortest
            state.line += self.base + (code - self.first_special) % self.span
        elif code == 2:
            state.address += reader.unsigned() * self.shortest
        elif code == 3:
            state.line += reader.signed()
        elif code == 4:
            state.file = reader.unsigned()
        elif code == 8:
            state.address += (255 - self.first_special) // self.span * self.shortest
        elif code == 9:
            state.address += fixed(reader, 2)
        elif code != 1:
            for _ in range(self.operands[code - 1]):
                reader.unsigned()
        return code >= self.first_special or code == 1


def _joined(folder: str, name: str) -> str:
    return name if name.startswith("/") or not folder else f"{folder}/{name}"


def read(module: Module) -> Debug:
    """What the module says of itself; nothing where it has none of it, or what this doesn't read."""
    found, sections = Debug(), _Sections(module)
    reader = sections.reader("info")
    try:
        while not reader.is_done():
            _unit(_Unit(sections, reader), found)
    except (Malformed, KeyError, ValueError):
        pass
    # (where a row ends one sequence and begins another, the second counts)
    found.lines.sort(key=lambda it: (it[0], it[1] is not None))
    return found


def _unit(unit: _Unit, found: Debug) -> None:
    files: list[str] = []
    if unit.root.number(LINES) is not None:
        lines = _Lines(unit.sections, unit.root.number(LINES) or 0, unit.root.text(FOLDER), unit.name(unit.root))
        found.lines += lines.rows
        files = lines.files
    for it in unit.entries.values():
        if it.tag in (SUBPROGRAM, INLINED):
            spans, file = unit.spans(it), it.number(CALL_FILE)
            called = Line(files[file], it.number(CALL_LINE) or 0) if file is not None and file < len(files) else None
            if spans:
                found.scopes.append(Scope(spans, unit.name(it), it.depth, called))
        location = it.attributes.get(LOCATION)
        if it.tag == VARIABLE and isinstance(location, bytes) and location[:1] in (b"\x03", b"\xa1"):
            address = int.from_bytes(location[1:], "little") if location[0] == 3 else unit.indexed_location(location)
            found.variables.append(Variable(unit.name(it), address, unit.size(unit.entries.get(it.number(TYPE) or -1))))
