# SPDX-License-Identifier: Apache-2.0
"""What a refused module is refused for: the import, the export, the instruction, the limit, and where it stands.

Places are those of the file, in hexadecimal, as wasm-objdump has them. Functions have the names that the module has for them.
"""
from __future__ import annotations

import re
from typing import Callable, Iterator

from . import opcodes
from .module import FUNCTION, GLOBAL, KINDS, MEMORY, TABLE, Body, FunctionType, Malformed, Module, Reader, Section, function_names, read_as_far_as

HOSTS = [(module, it) for module in ("sched", "sched2", "sched3") for it in ("pod", "node")]
HOST_TYPE = FunctionType(bytes([opcodes.I32, opcodes.I32]), bytes([opcodes.I32]))
EXPORTS = {"filter": FunctionType(b"", bytes([opcodes.I32])), "score": FunctionType(b"", bytes([opcodes.I64]))}
MAGIC = b"\0asm"
MOST_BYTES, MOST_PAGES, MOST_ELEMENTS, MOST_GLOBALS, MOST_SLOTS = 1_048_576, 32, 1_024, 1_024, 1_024
SECTIONS = ("custom", "type", "import", "function", "table", "memory", "global", "export", "start", "element", "code", "data")
CODE = 10
EDITION = "compile with -mcpu=mvp, and each library that is linked in"


def culprits(data: bytes, said: str) -> list[str]:
    """Lines for what `wsched check` said of these bytes; none where it said `accepted`."""
    module = read_as_far_as(data)
    for word, lines in _LINES.items():
        if word in said:
            found = re.search(r" at (\d+)$", said)
            try:
                return [*lines(_Look(module, int(found[1]) if found else 0, said))]
            except Malformed as why:
                return [f"what stands there can't be read: {why}"]
    return []


class _Look:
    """A module, the place that was told, and how what stands there is called."""

    def __init__(self, module: Module, place: int, said: str) -> None:
        self.module, self.place, self.said = module, place, said
        self.names = function_names(module)

    def called(self, function: int) -> str:
        return f"function {function}" + (f" `{self.names[function]}`" if function in self.names else "")

    def byte(self) -> int | None:
        return self.module.data[self.place] if self.place < len(self.module.data) else None

    def where(self) -> str:
        """The function or the section in which the place is."""
        for it in self.module.sections:
            if it.place <= self.place < it.end:
                # (a body's size and its locals stand in front of its instructions)
                found = next((function for function, body in self.bodies() if self.place < body.end), None) if it.number == CODE else None
                return self.called(found) if found is not None else _named(it)
        return "no section"

    def instructions(self, body: Body) -> Iterator[tuple[int, int, Reader]]:
        """Place, opcode, and a reader that stands behind it, up to the first that is none of the first edition."""
        reader = Reader(self.module.data, body.start, body.end)
        while not reader.is_done():
            place, opcode = reader.at, reader.byte()
            if opcode not in opcodes.INSTRUCTIONS:
                return
            behind = Reader(self.module.data, reader.at, body.end)
            reader.immediates(opcode)
            yield place, opcode, behind

    def bodies(self) -> Iterator[tuple[int, Body]]:
        first = len(self.module.hosts)
        yield from ((first + own, body) for own, body in enumerate(self.module.bodies))


def _named(it: Section) -> str:
    """`the code section`, or the custom section's name."""
    return f"the section `{it.name}`" if it.name else f"the {SECTIONS[it.number] if it.number < len(SECTIONS) else it.number} section"


def _truncated(look: _Look) -> Iterator[str]:
    size = len(look.module.data)
    for it in look.module.sections:
        declared = Reader(look.module.data, it.place + 1)
        count = declared.unsigned()
        if declared.at + count > size:
            yield f"{_named(it)}, which begins at {it.place:#x}, wants {declared.at + count - size:,} bytes more than the file has"
    yield f"the file ends at {size:#x}: build or copy it again"


def _bad_magic(look: _Look) -> Iterator[str]:
    begins = look.module.data[:4]
    known = {b"\x7fELF": "a program or an object of this machine: --target=wasm32", b"BC\xc0\xde": "LLVM's bitcode: compile without -flto or -emit-llvm",
             b"!<ar": "a library: link it", b"(mod": "a module's text: wat2wasm"}
    yield f"it begins with {begins!r}, and a module with {MAGIC!r}" + (f": it is {known[begins]}" if begins in known else "")


def _bad_version(look: _Look) -> Iterator[str]:
    version = look.module.data[4:8]
    is_component = version[2:3] == b"\1"
    yield "it is a component: give the core module that is inside it" if is_component else f"its version is {int.from_bytes(version, 'little')}, not 1"


def _bad_section(look: _Look) -> Iterator[str]:
    number = look.byte()
    later = {12: "counts data segments, as bulk memory has it: it is an object file, which wants to be linked, or was compiled for a later edition",
             13: "has the tags of exceptions, of a later edition"}
    if look.place not in {it.place for it in look.module.sections}:
        yield f"in {look.where()}: the body whose size stands at {look.place:#x} doesn't fill it, or ends before it"
    elif number in later:
        yield f"section {number} at {look.place:#x} {later[number]}: {EDITION}"
    elif number is not None and number < len(SECTIONS):
        yield f"the {SECTIONS[number]} section at {look.place:#x} stands behind a later one, or its contents don't fill its size"
    else:
        yield f"section {number} at {look.place:#x}: there is none of this number"


def _bad_number(look: _Look) -> Iterator[str]:
    yield f"in {look.where()}: a number at {look.place:#x} is longer than one of its kind may be"


def _bad_type(look: _Look) -> Iterator[str]:
    byte = look.byte()
    known = opcodes.VALUE_TYPES.get(byte or 0)
    what = f"the type {known}" if known else "more than one result, or a block with parameters" if byte is not None and byte < 0x40 else "a type"
    yield f"in {look.where()}: {what} of a later edition at {look.place:#x}: {EDITION}"


def _bad_opcode(look: _Look) -> Iterator[str]:
    opcode = look.byte() or 0
    sub = Reader(look.module.data, look.place + 1).unsigned() if opcode >= 0xfb else None
    feature, name = opcodes.later(opcode, sub) or ("", f"the byte {opcode:#04x}, which is no instruction")
    yield f"in {look.where()}: {name} at {look.place:#x}" + (f", of a later edition ({feature})" if feature else "")
    yield EDITION + ("; a rule that then wants `memcpy` or `memset` has to have it" if feature == "bulk memory" else "")


def _bad_name(look: _Look) -> Iterator[str]:
    yield f"in {look.where()}: a name at {look.place:#x} that is no UTF-8"


def _count_mismatch(look: _Look) -> Iterator[str]:
    yield f"{len(look.module.own)} functions are declared, and {len(look.module.bodies)} bodies are there"


def _too_deep(look: _Look) -> Iterator[str]:
    yield f"in {look.where()}: the block at {look.place:#x} is the 257th inside others: cut the function in two, or -O2"


def _too_long(look: _Look) -> Iterator[str]:
    size = len(look.module.data)
    custom = sum(it.end - it.place for it in look.module.sections if it.number == 0)
    yield f"{size:,} bytes, {size - MOST_BYTES:,} more than there may be; {custom:,} of them are names and the debugger's sections (--strip-all)"
    for it in sorted(look.module.sections, key=lambda it: it.place - it.end)[:3]:
        yield f"{_named(it)} has {it.end - it.place:,}"


def _float(look: _Look) -> Iterator[str]:
    floats = {opcodes.F32, opcodes.F64}
    for function, index in enumerate(look.module.functions):
        if index < len(look.module.types) and floats & {*look.module.types[index].parameters, *look.module.types[index].results}:
            yield f"{look.called(function)} is {look.module.types[index]}"
    for k, it in enumerate(look.module.globals):
        if it.type in floats:
            yield f"global {k} is {opcodes.VALUE_TYPES[it.type]}"
    for function, body in look.bodies():
        for kind in floats & {kind for _, kind in body.locals}:
            yield f"{look.called(function)} has locals of type {opcodes.VALUE_TYPES[kind]}"
        found = [(place, opcode) for place, opcode, _ in look.instructions(body) if opcodes.is_float(opcode)]
        if found:
            place, opcode = found[0]
            yield f"{look.called(function)}: {len(found)} instructions, the first {opcodes.INSTRUCTIONS[opcode].name} at {place:#x}"
    yield "a rule counts in integers: 100 * used / all"


def _untyped_module(look: _Look) -> Iterator[str]:
    module = look.module
    if len(module.memories) > 1 or len(module.tables) > 1:
        yield f"{len(module.memories)} memories and {len(module.tables)} tables: one of each at most"
    for what, limits, most in (("memory", module.memories, 65_536), ("table", module.tables, 2**32)):
        for it in limits:
            if it.least > (most if it.most is None else min(it.most, most)) or (it.most or 0) > most:
                yield f"a {what} of {it.least} at first, and at most {it.most}"
    names = [it.name for it in module.exports]
    yield from (f"`{it}` is exported {names.count(it)} times" for it in dict.fromkeys(names) if names.count(it) > 1)
    yield from _indices(look)
    offsets = {"element": [it.offset for it in module.elements], "data": [it.offset for it in module.segments]}
    yield from (f"{what} segment {k}: its offset is no constant of type i32" for what, listed in offsets.items() for k, it in enumerate(listed)
                if it is None or it[0] != opcodes.I32)
    yield from (f"global {k}: its first value is no constant of its type (to read another global is none here)" for k, it in enumerate(module.globals)
                if it.first is None or it.first[0] != it.type)
    if module.start is not None and module.type_of(module.start) not in (None, FunctionType(b"", b"")):
        yield f"{look.called(module.start)} is the start, which takes and gives nothing, and it is {module.type_of(module.start)}"
    yield "`wasm-validate` names the rule as well"


def _indices(look: _Look) -> Iterator[str]:
    """What names something that isn't there."""
    module, count = look.module, len(look.module.functions)
    yield from (f"{look.called(k)} has the type {it}, and there are {len(module.types)}" for k, it in enumerate(module.functions) if it >= len(module.types))
    there = {FUNCTION: count, TABLE: len(module.tables), MEMORY: len(module.memories), GLOBAL: len(module.globals)}
    yield from (f"`{it.name}` exports {KINDS[it.kind]} {it.item}, and there are {there[it.kind]}" for it in module.exports
                if it.kind in there and it.item >= there[it.kind])
    yield from (f"element segment {k} has function {it}, and there are {count}" for k, segment in enumerate(module.elements)
                for it in segment.functions if it >= count)
    if module.start is not None and module.start >= count:
        yield f"the start is function {module.start}, and there are {count}"
    if module.elements and not module.tables:
        yield "there are element segments and no table"
    if module.segments and not module.memories:
        yield "there are data segments and no memory"


def _untyped_function(look: _Look) -> Iterator[str]:
    found = re.search(r"function (\d+) at", look.said)
    known = opcodes.INSTRUCTIONS.get(look.byte() or 0)
    yield f"in {look.called(int(found[1]) if found else 0)}: {known.name if known else 'an instruction'} at {look.place:#x}, up to which the types don't fit"
    yield "`wasm-validate` says which it wants and which it finds"


def _bad_import(look: _Look) -> Iterator[str]:
    module, function = look.module, 0
    for it in module.imports:
        what = KINDS[it.kind] if it.kind < len(KINDS) else "thing"
        known = module.types[it.type] if it.type is not None and it.type < len(module.types) else None
        if (it.module, it.name) not in HOSTS:
            yield f"it imports the {what} `{it.module}.{it.name}`{f', {known},' if known else ''} at {it.place:#x}{_callers(look, it.kind, function)}"
        elif it.kind != FUNCTION or known != HOST_TYPE:
            yield f"`{it.module}.{it.name}` at {it.place:#x} is a {what}{f' {known}' if known else ''}, and has to be a function {HOST_TYPE}"
        function += it.kind == FUNCTION
    yield "there are pod and node of sched, of sched2 and of sched3; what else a rule needs it has to have (no --allow-undefined, no --import-memory)"


def _callers(look: _Look, kind: int, function: int) -> str:
    """Where a function that is imported is called."""
    found = [f"{look.called(caller)} at {place:#x}" for caller, body in look.bodies() for place, opcode, behind in look.instructions(body)
             if kind == FUNCTION and opcode == opcodes.CALL and behind.unsigned() == function]
    return f": called in {', '.join(found[:3])}{f' and {len(found) - 3} times more' if len(found) > 3 else ''}" if found else ""


def _bad_export(look: _Look) -> Iterator[str]:
    found = [it for it in look.module.exports if it.name in EXPORTS]
    for it in found:
        if it.kind != FUNCTION:
            yield f"`{it.name}` is a {KINDS[it.kind] if it.kind < len(KINDS) else 'thing'}, and has to be a function {EXPORTS[it.name]}"
        elif look.module.type_of(it.item) != EXPORTS[it.name]:
            yield (f"`{it.name}` is {look.called(it.item)}, {look.module.type_of(it.item)}, and has to be {EXPORTS[it.name]}"
                   + (": a score is a `long long` (SCORE)" if it.name == "score" else ": without parameters, and an `int` (FILTER)"))
    if not found:
        names = ", ".join(f"`{it.name}`" for it in look.module.exports)
        yield f"neither `filter` nor `score` is exported, as FILTER and SCORE of sched.h do; what is exported: {names or 'nothing'}"


def _over_limit(look: _Look) -> Iterator[str]:
    module = look.module
    for what, has, most, way in (
            ("pages of memory at first", module.memories[0].least if module.memories else 0, MOST_PAGES, "less static data, a smaller stack"),
            ("elements of the table", module.tables[0].least if module.tables else 0, MOST_ELEMENTS, "fewer functions whose address is taken"),
            ("globals", len(module.globals), MOST_GLOBALS, "put them into memory")):
        if has > most:
            yield f"{has:,} {what}, {has - most:,} more than {most:,}: {way}"
    for function, body in look.bodies():
        known = module.type_of(function)
        parameters, own = len(known.parameters) if known else 0, sum(count for count, _ in body.locals)
        height = greatest_height(module, body, len(known.results) if known else 0)
        total = parameters + own + height
        if total > MOST_SLOTS:
            ways = {"parameters": "hand over a pointer", "locals": "-O2 or -Os, an array or a struct", "operands": "cut the expression in two"}
            worst = max(zip((parameters, own, height), ways, strict=True))[1]
            yield (f"{look.called(function)}: {parameters:,} parameters, {own:,} locals and {height:,} operands at once are {total:,}, "
                   f"{total - MOST_SLOTS:,} more than {MOST_SLOTS:,}: mostly {worst}: {ways[worst]}")


def greatest_height(module: Module, body: Body, results: int) -> int:
    """How many operands a body that is well typed has at once, by "Sizes" in docs/WEBASSEMBLY.md."""
    reader = Reader(module.data, body.start, body.end)
    blocks = [(0, results)]
    height = most = 0
    while blocks and not reader.is_done():
        opcode = reader.byte()
        behind = Reader(module.data, reader.at, body.end)
        reader.immediates(opcode)
        base, arity = blocks[-1]
        takes, gives = _effect(module, opcode, behind)
        height = max(height - takes, base) + gives
        most = max(most, height)
        if opcode in (opcodes.BLOCK, opcodes.LOOP, opcodes.IF):
            blocks.append((height, 0 if behind.byte() == opcodes.NO_RESULT else 1))
        elif opcode in (opcodes.UNREACHABLE, opcodes.BR, opcodes.BR_TABLE, opcodes.RETURN, opcodes.ELSE):
            height = base
        elif opcode == opcodes.END:
            blocks.pop()
            height = base + arity
            most = max(most, height)
    return most


def _effect(module: Module, opcode: int, behind: Reader) -> tuple[int, int]:
    """How many operands an instruction takes and gives."""
    if opcode == opcodes.CALL:
        known = module.type_of(behind.unsigned())
        return (len(known.parameters), len(known.results)) if known else (0, 0)
    if opcode == opcodes.CALL_INDIRECT:
        known = module.types[behind.unsigned()]
        return len(known.parameters) + 1, len(known.results)
    named = opcodes.INSTRUCTIONS[opcode]
    return named.takes, named.gives


_LINES: dict[str, Callable[[_Look], Iterator[str]]] = {
    " 1 Truncated": _truncated, " 2 BadMagic": _bad_magic, " 3 BadVersion": _bad_version, " 4 BadSection": _bad_section, " 5 BadNumber": _bad_number,
    " 6 BadType": _bad_type, " 7 BadOpcode": _bad_opcode, " 8 BadName": _bad_name, " 9 CountMismatch": _count_mismatch, " 10 TooDeep": _too_deep,
    " 11 TooLong": _too_long, " 2 Float": _float, " 1 Untyped module": _untyped_module, " 1 Untyped function": _untyped_function,
    " 2 BadImport": _bad_import, " 3 BadExport": _bad_export, " 4 OverLimit": _over_limit}
