# SPDX-License-Identifier: Apache-2.0
"""Modules with one fault each, written byte by byte, and what has to be said of them."""
from __future__ import annotations

from typing import Iterator, NamedTuple

from made import named, section, unsigned, vector

MAGIC = b"\0asm\1\0\0\0"
FILTER, SCORE, HOST = b"\x60\0\1\x7f", b"\x60\0\1\x7e", b"\x60\2\x7f\x7f\1\x7f"
RETURNS = b"\x41\0\x0b"


class Wrong(NamedTuple):
    """A module with one fault, what `check` has to begin with, and what `say` has to have in it."""

    name: str
    data: bytes
    check: str
    says: list[str]


def body(code: bytes, runs: list[bytes] | None = None) -> bytes:
    """An entry of the code section."""
    contents = vector(runs or []) + code
    return unsigned(len(contents)) + contents


def module(**parts: list[bytes] | bytes) -> bytes:
    """A filter that answers 0, but for the sections that are given in another way; `names` are those of its functions."""
    given: dict[str, list[bytes] | bytes] = {
        "types": [FILTER, SCORE, HOST], "functions": [b"\0"], "exports": [named("filter") + b"\0\0"], "code": [body(RETURNS)], **parts}
    names = given.pop("names", [])
    made = MAGIC
    for number, key in enumerate(("types", "imports", "functions", "tables", "memories", "globals", "exports", "start", "elements", "code", "data"), 1):
        it = given.pop(key, [])
        made += bytes([number]) + unsigned(len(it)) + it if isinstance(it, bytes) else section(number, it)
    assert not given, given
    if names:
        listed = vector([unsigned(k) + named(it.decode()) for k, it in enumerate(names) if isinstance(it, bytes)])
        contents = named("name") + b"\1" + unsigned(len(listed)) + listed
        made += b"\0" + unsigned(len(contents)) + contents
    return made


def host(source: str, name: str, kind: bytes = b"\0\2") -> bytes:
    return named(source) + named(name) + kind


def decoding() -> Iterator[Wrong]:
    """What can't be read."""
    good = module(names=[b"filter_of_mine"])
    yield Wrong("truncated", good[:-30], "refused decode 1 Malformed 1 Truncated", ["the code section, which begins at", "bytes more than the file has"])
    yield Wrong("another file", b"\x7fELF" + good, "refused decode 1 Malformed 2 BadMagic", ["b'\\x7fELF'", "--target=wasm32"])
    yield Wrong("a component", b"\0asm\x0d\0\1\0" + good[8:], "refused decode 1 Malformed 3 BadVersion", ["it is a component"])
    yield Wrong("data count", module()[:-8] + b"\x0c\1\0" + module()[-8:], "refused decode 1 Malformed 4 BadSection", ["section 12", "bulk memory"])
    yield Wrong("a section twice", module() + section(1, [FILTER]), "refused decode 1 Malformed 4 BadSection", ["the type section at 0x", "behind a later one"])
    yield Wrong("a body too short", module(code=[b"\5\0\x41\0\x0b\x0b"]), "refused decode 1 Malformed 4 BadSection",
                ["in function 0 `filter`: the body whose size stands at 0x"])
    yield Wrong("a vector's local", module(code=[body(RETURNS, [b"\1\x7b"])]), "refused decode 1 Malformed 6 BadType",
                ["in function 0 `filter`: the type v128"])
    yield Wrong("two results", module(types=[b"\x60\0\2\x7f\x7f"]), "refused decode 1 Malformed 6 BadType", ["more than one result", "-mcpu=mvp"])
    yield Wrong("a vector's type", module(types=[FILTER, b"\x60\1\x7b\0"]), "refused decode 1 Malformed 6 BadType", ["the type v128"])
    copied = module(code=[body(b"\x41\0\x41\0\x41\0\xfc\x0a\0\0" + RETURNS)], names=[b"copies"])
    yield Wrong("memory.copy", copied, "refused decode 1 Malformed 7 BadOpcode",
                [f"in function 0 `copies`: memory.copy at {copied.index(0xfc):#x}, of a later edition (bulk memory)", "memcpy"])
    yield Wrong("a vector", module(code=[body(b"\xfd\x0c" + bytes(16) + RETURNS)]), "refused decode 1 Malformed 7 BadOpcode",
                ["function 0 `filter`", "(vectors)"])
    yield Wrong("a reference", module(code=[body(b"\xd0\x70\x1a" + RETURNS)]), "refused decode 1 Malformed 7 BadOpcode", ["ref.null", "(reference types)"])
    yield Wrong("a tail call", module(code=[body(b"\x12\0\x0b")]), "refused decode 1 Malformed 7 BadOpcode", ["return_call", "(tail calls)"])
    yield Wrong("no instruction", module(code=[body(b"\x27" + RETURNS)]), "refused decode 1 Malformed 7 BadOpcode", ["the byte 0x27, which is no instruction"])
    yield Wrong("no UTF-8", module(exports=[b"\2\xff\xfe\0\0"]), "refused decode 1 Malformed 8 BadName", ["in the export section", "no UTF-8"])
    yield Wrong("a body too few", module(functions=[b"\0", b"\0"]), "refused decode 1 Malformed 9 CountMismatch", ["2 functions are declared, and 1 bodies"])
    yield Wrong("blocks", module(code=[body(b"\x02\x40" * 257 + b"\x0b" * 257 + RETURNS)]), "refused decode 1 Malformed 10 TooDeep",
                ["the 257th", "function 0 `filter`"])
    long = module() + b"\0" + unsigned(1_048_600) + named(".debug_str") + bytes(1_048_589)
    yield Wrong("too long", long, "refused decode 1 Malformed 11 TooLong", [f"{len(long) - 1_048_576:,} more than there may be", "`.debug_str`", "--strip-all"])
    floats = module(code=[body(b"\x43\0\0\0\0\x1a\x44" + bytes(8) + b"\x1a" + RETURNS)])
    yield Wrong("floats", floats, "refused decode 2 Float", [f"function 0 `filter`: 2 instructions, the first f32.const at {floats.index(0x43):#x}"])
    yield Wrong("a float's local", module(code=[body(RETURNS, [b"\1\x7c"])]), "refused decode 2 Float", ["function 0 `filter` has locals of type f64"])
    yield Wrong("a float's type", module(types=[FILTER, b"\x60\1\x7d\0"], functions=[b"\0", b"\1"], code=[body(RETURNS), body(b"\x0b")]),
                "refused decode 2 Float",
                ["function 1 is (f32) -> nothing"])


def typing() -> Iterator[Wrong]:
    """What is read and not accepted, but for the limits."""
    yield Wrong("a foreign import", module(imports=[host("env", "memcpy")], exports=[named("filter") + b"\0\1"], code=[body(b"\x41\0\x41\0\x10\0\x0b")]),
                "refused type 2 BadImport", ["the function `env.memcpy`, (i32, i32) -> i32,", "called in function 1 `filter` at 0x"])
    yield Wrong("the second import", module(imports=[host("sched", "pod"), host("sched", "nodes")], exports=[named("filter") + b"\0\2"]),
                "refused type 2 BadImport", ["`sched.nodes`"])
    yield Wrong("an import of another type", module(imports=[host("sched", "pod", b"\0\0")], exports=[named("filter") + b"\0\1"]),
                "refused type 2 BadImport", ["`sched.pod` at 0x", "is a function () -> i32, and has to be a function (i32, i32) -> i32"])
    yield Wrong("a memory", module(imports=[host("env", "memory", b"\2\0\1")]), "refused type 2 BadImport", ["the memory `env.memory`"])
    yield Wrong("no export", module(exports=[named("main") + b"\0\0"]), "refused type 3 BadExport", ["neither `filter` nor `score` is exported", "`main`"])
    yield Wrong("no function", module(memories=[b"\0\1"], exports=[named("filter") + b"\2\0"]), "refused type 3 BadExport",
                ["`filter` is a memory, and has to be a function () -> i32"])
    yield Wrong("a score of 32 bits", module(exports=[named("score") + b"\0\0"]), "refused type 3 BadExport",
                ["`score` is function 0", "() -> i32, and has to be () -> i64"])
    yield Wrong("operands", module(code=[body(b"\x41\0\x6a" + RETURNS)], names=[b"adds"]), "refused type 1 Untyped function 0",
                ["in function 0 `adds`: i32.add at 0x"])
    yield Wrong("a name twice", module(exports=[named("filter") + b"\0\0"] * 2), "refused type 1 Untyped module", ["`filter` is exported 2 times"])
    yield Wrong("no such function", module(exports=[named("filter") + b"\0\7"]), "refused type 1 Untyped module", ["exports function 7, and there are 1"])
    yield Wrong("a global of another", module(globals=[b"\x7f\0\x41\0\x0b", b"\x7f\0\x23\0\x0b"]), "refused type 1 Untyped module",
                ["global 1: its first value is no constant"])
    yield Wrong("a wide offset", module(memories=[b"\0\1"], data=[b"\0\x42\0\x0b\1x"]), "refused type 1 Untyped module", ["data segment 0: its offset"])
    yield Wrong("a start that gives", module(start=b"\0"), "refused type 1 Untyped module", ["is the start", "() -> i32"])
    yield Wrong("two memories", module(memories=[b"\0\1", b"\0\1"]), "refused type 1 Untyped module", ["2 memories"])


def limits() -> Iterator[Wrong]:
    """Each of the six, one above it."""
    yield Wrong("pages", module(memories=[b"\0\x21"]), "refused type 4 OverLimit", ["33 pages of memory at first, 1 more than 32"])
    yield Wrong("elements", module(tables=[b"\x70\0" + unsigned(1_025)]), "refused type 4 OverLimit", ["1,025 elements of the table, 1 more than 1,024"])
    yield Wrong("globals", module(globals=[b"\x7f\0\x41\0\x0b"] * 1_025), "refused type 4 OverLimit", ["1,025 globals, 1 more than 1,024"])
    many = b"\x60" + unsigned(1_025) + b"\x7f" * 1_025 + b"\0"
    yield Wrong("parameters", module(types=[FILTER, many], functions=[b"\0", b"\1"], code=[body(RETURNS), body(b"\x0b")]), "refused type 4 OverLimit",
                ["function 1: 1,025 parameters, 0 locals and 0 operands at once are 1,025, 1 more than 1,024: mostly parameters"])
    yield Wrong("locals", module(code=[body(RETURNS, [unsigned(1_024) + b"\x7f"])]), "refused type 4 OverLimit",
                ["function 0 `filter`: 0 parameters, 1,024 locals and 1 operands at once are 1,025, 1 more than 1,024: mostly locals"])
    yield Wrong("operands at once", module(code=[body(b"\x41\0" * 1_025 + b"\x6a" * 1_024 + b"\x0b")]), "refused type 4 OverLimit",
                ["0 locals and 1,025 operands at once are 1,025, 1 more than 1,024: mostly operands"])
    # (behind a branch the height begins anew, and what stands there counts as well)
    height = b"\x02\x40\x41\0\x0c\0" + b"\x41\0" * 1_025 + b"\x0c\0\x0b"
    yield Wrong("operands behind a branch", module(code=[body(height + RETURNS)]), "refused type 4 OverLimit", ["1,025 operands at once are 1,025"])


def every() -> list[Wrong]:
    return [*decoding(), *typing(), *limits()]
