# SPDX-License-Identifier: Apache-2.0
"""Where in an author's source a place of a module is, and what units of fuel add up to there."""
from __future__ import annotations

import collections
import itertools
import pathlib
from typing import Iterator, Mapping, NamedTuple

from . import dwarf
from .dwarf import Line
from .machine import Outcome, Store
from .module import GLOBAL, Module, function_names

CODE = 10
# A name that is longer is cut: generic functions have names of hundreds of letters.
LONGEST_NAME = 60


class BadBuffer(Exception):
    """A buffer that isn't there, or isn't one."""


class Buffer(NamedTuple):
    """Addresses that are watched, and what they are called."""

    name: str
    addresses: range


class Share(NamedTuple):
    """Units of fuel, and where they went."""

    units: int
    name: str


class Source:
    """A module's places in words: functions by DWARF or by names, lines by DWARF. Sources are looked for where the compiler had them, then beside
    the module."""

    def __init__(self, module: Module, folder: pathlib.Path) -> None:
        self.module, self.folder, self.names, self.debug = module, folder, function_names(module), dwarf.read(module)
        self.code = next((it.start for it in module.sections if it.number == CODE), 0)
        self._texts: dict[str, list[str]] = {}

    @property
    def has_lines(self) -> bool:
        return bool(self.debug.lines)

    def function(self, number: int) -> str:
        return self.names.get(number, f"function {number}")

    def frames(self, function: int, place: int) -> list[tuple[str, Line | None]]:
        """The functions that stand at a place, of which all but the last were inlined: the innermost first, each with its line."""
        line = self.debug.line_at(place - self.code)
        found: list[tuple[str, Line | None]] = []
        for it in self.debug.scopes_at(place - self.code):
            name = it.name or self.function(function)
            found.append((name if len(name) <= LONGEST_NAME else f"{name[:LONGEST_NAME - 2]}..", line))
            line = it.called
        return found or [(self.function(function), line)]

    def stack(self, stack: list[tuple[int, int]], most: int = 12) -> str:
        """`version_of at 0x238 (rule.cc:24) < filter (rule.cc:52)`."""
        said = []
        for function, place in stack[:most]:
            for depth, (name, line) in enumerate(self.frames(function, place)):
                said.append(name + (f" at {place:#x}" if depth == 0 else "") + (f" ({line})" if line else ""))
        more = len(stack) - most
        return " < ".join(said) + (f" < {more} more" if more > 0 else "")

    def end_of(self, outcome: Outcome) -> str:
        """The stack of a call that was cut off. A compiler makes one of all traps of a function, which is then of no line: so the innermost place is
        that of the instruction from which the call came there."""
        stack = outcome.stack
        if str(outcome.stop) != "1 Unreachable" or not stack or self.debug.line_at(stack[0][1] - self.code):
            return self.stack(stack)
        function, place = stack[0]
        if self.module.at(outcome.before) != function:
            return self.stack(stack)
        return f"{self.stack([(function, outcome.before), *stack[1:]])}, by the trap at {place:#x}"

    def by_function(self, spent: Mapping[int, int]) -> list[Share]:
        """The dearest first; an inlined function apart from the one that it was inlined into."""
        found = collections.Counter[str]()
        for place, units in spent.items():
            found[self.frames(self.module.at(place) or 0, place)[0][0]] += units
        return [Share(units, name) for name, units in found.most_common()]

    def by_line(self, spent: Mapping[int, int]) -> list[Share]:
        """The dearest first, with the source where it is there."""
        found = collections.Counter[Line | None]()
        for place, units in spent.items():
            found[self.debug.line_at(place - self.code)] += units
        return [Share(units, f"{line}  {self._text(line)}".rstrip() if line else "no line") for line, units in found.most_common()]

    def by_place(self, spent: Mapping[int, int]) -> list[Share]:
        """The dearest first."""
        return [Share(units, f"{place:#x} in {self.function(self.module.at(place) or 0)}") for place, units in collections.Counter(spent).most_common()]

    def _text(self, line: Line) -> str:
        if line.file not in self._texts:
            self._texts[line.file] = next(self._read(line.file), [])
        lines = self._texts[line.file]
        return lines[line.line - 1].strip() if 0 < line.line <= len(lines) else ""

    def _read(self, file: str) -> Iterator[list[str]]:
        for path in (pathlib.Path(file), self.folder / pathlib.Path(file).name):
            try:
                yield path.read_text(encoding="utf-8", errors="replace").splitlines()
            except OSError:
                continue

    def buffer(self, word: str) -> Buffer:
        """NAME[+LENGTH] or ADDRESS[+LENGTH]: a variable or an exported global by its name."""
        name, _, length = word.partition("+")
        if length and not length.isdecimal():
            raise BadBuffer(f"{word}: {length} is no length in bytes")
        try:
            return Buffer(name, range(int(name, 0), int(name, 0) + int(length or 4)))
        except ValueError:
            pass
        exported = {it.name: self.module.globals[it.item].first for it in self.module.exports if it.kind == GLOBAL and it.item < len(self.module.globals)}
        found = [(it.address, it.size) for it in self.debug.variables if it.name == name] or [(it[1], 4) for key, it in exported.items() if key == name and it]
        if not found:
            known = ", ".join(sorted({it.name for it in self.debug.variables if it.name} | exported.keys()))
            raise BadBuffer(f"{name} is no variable and no exported global; there are: {known or 'none (compile with -g)'}")
        if len(found) > 1:
            raise BadBuffer(f"{name}: {len(found)} variables have this name; their addresses: {', '.join(f'{it:#x}+{size}' for it, size in found)}")
        address, size = found[0]
        return Buffer(name, range(address, address + int(length or size or 4)))

    def logged(self, stores: list[Store], buffer: Buffer) -> Iterator[str]:
        """`seen+4 = 5 in filter at 0x9a (rule.c:9)`; bytes that follow each other are a text, and what stands there many times is told once."""
        for line, same in itertools.groupby(self._stored(stores, buffer)):
            count = sum(1 for _ in same)
            yield line + (f", {count} times" if count > 1 else "")

    def _stored(self, stores: list[Store], buffer: Buffer) -> Iterator[str]:
        at = 0
        while at < len(stores):
            first, text, last = stores[at], stores[at].data, at
            while last + 1 < len(stores) and len(stores[last].data) == len(stores[last + 1].data) == 1 and stores[last + 1].address == stores[last].address + 1:
                last += 1
                text += stores[last].data
            offset = first.address - buffer.addresses.start
            value = str(int.from_bytes(text, "little")) if last == at else repr(text.decode(errors="replace"))
            yield f"{buffer.name}{f'{offset:+}' if offset else ''} = {value} in {self.stack([(first.function, first.place)])}"
            at = last + 1
