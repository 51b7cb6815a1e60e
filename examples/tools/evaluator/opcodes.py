# SPDX-License-Identifier: Apache-2.0
"""The instructions: of each opcode its name, its immediates, and how many operands it takes and gives (WebAssembly Core 1.0, 5.4).

Floats stand here too, and of later editions the names, for those who say what a module has that isn't run.
"""
from __future__ import annotations

from typing import Iterator, NamedTuple


class Instruction(NamedTuple):
    """A letter for each immediate: b a block's type, x an index, t a branch table, z a zero byte, m alignment and offset, i and l a signed
    constant, f and d a float of four and of eight bytes."""

    name: str
    immediates: str
    takes: int
    gives: int


def _rows() -> Iterator[tuple[int, str, str, int, int]]:
    """The first opcode of a run, the names, and what they have in common."""
    yield 0x00, "unreachable nop", "", 0, 0
    yield 0x02, "block loop", "b", 0, 0
    yield 0x04, "if", "b", 1, 0
    yield 0x05, "else", "", 0, 0
    yield 0x0b, "end", "", 0, 0
    yield 0x0c, "br", "x", 0, 0
    yield 0x0d, "br_if", "x", 1, 0
    yield 0x0e, "br_table", "t", 1, 0
    yield 0x0f, "return", "", 0, 0
    yield 0x10, "call", "x", 0, 0
    yield 0x11, "call_indirect", "xz", 1, 0
    yield 0x1a, "drop", "", 1, 0
    yield 0x1b, "select", "", 3, 1
    yield 0x20, "local.get", "x", 0, 1
    yield 0x21, "local.set", "x", 1, 0
    yield 0x22, "local.tee", "x", 1, 1
    yield 0x23, "global.get", "x", 0, 1
    yield 0x24, "global.set", "x", 1, 0
    yield 0x28, "i32.load i64.load f32.load f64.load i32.load8_s i32.load8_u i32.load16_s i32.load16_u", "m", 1, 1
    yield 0x30, "i64.load8_s i64.load8_u i64.load16_s i64.load16_u i64.load32_s i64.load32_u", "m", 1, 1
    yield 0x36, "i32.store i64.store f32.store f64.store i32.store8 i32.store16 i64.store8 i64.store16 i64.store32", "m", 2, 0
    yield 0x3f, "memory.size", "z", 0, 1
    yield 0x40, "memory.grow", "z", 1, 1
    yield from ((0x41 + k, f"{kind}.const", "ilfd"[k], 0, 1) for k, kind in enumerate(("i32", "i64", "f32", "f64")))
    for first, kind in ((0x45, "i32"), (0x50, "i64")):
        yield first, f"{kind}.eqz", "", 1, 1
        yield first + 1, _of(kind, "eq ne lt_s lt_u gt_s gt_u le_s le_u ge_s ge_u"), "", 2, 1
    for first, kind in ((0x5b, "f32"), (0x61, "f64")):
        yield first, _of(kind, "eq ne lt gt le ge"), "", 2, 1
    for first, kind in ((0x67, "i32"), (0x79, "i64")):
        yield first, _of(kind, "clz ctz popcnt"), "", 1, 1
        yield first + 3, _of(kind, "add sub mul div_s div_u rem_s rem_u and or xor shl shr_s shr_u rotl rotr"), "", 2, 1
    for first, kind in ((0x8b, "f32"), (0x99, "f64")):
        yield first, _of(kind, "abs neg ceil floor trunc nearest sqrt"), "", 1, 1
        yield first + 7, _of(kind, "add sub mul div min max copysign"), "", 2, 1
    yield 0xa7, "i32.wrap_i64 i32.trunc_f32_s i32.trunc_f32_u i32.trunc_f64_s i32.trunc_f64_u i64.extend_i32_s i64.extend_i32_u", "", 1, 1
    yield 0xae, "i64.trunc_f32_s i64.trunc_f32_u i64.trunc_f64_s i64.trunc_f64_u", "", 1, 1
    yield 0xb2, "f32.convert_i32_s f32.convert_i32_u f32.convert_i64_s f32.convert_i64_u f32.demote_f64", "", 1, 1
    yield 0xb7, "f64.convert_i32_s f64.convert_i32_u f64.convert_i64_s f64.convert_i64_u f64.promote_f32", "", 1, 1
    yield 0xbc, "i32.reinterpret_f32 i64.reinterpret_f64 f32.reinterpret_i32 f64.reinterpret_i64", "", 1, 1
    yield 0xc0, "i32.extend8_s i32.extend16_s i64.extend8_s i64.extend16_s i64.extend32_s", "", 1, 1


def _of(kind: str, names: str) -> str:
    return " ".join(f"{kind}.{name}" for name in names.split())


INSTRUCTIONS = {first + k: Instruction(name, immediates, takes, gives)
                for first, names, immediates, takes, gives in _rows() for k, name in enumerate(names.split())}

UNREACHABLE, BLOCK, LOOP, IF, ELSE, END = 0x00, 0x02, 0x03, 0x04, 0x05, 0x0b
BR, BR_IF, BR_TABLE, RETURN, CALL, CALL_INDIRECT = 0x0c, 0x0d, 0x0e, 0x0f, 0x10, 0x11
I32_CONST, I64_CONST, GLOBAL_GET = 0x41, 0x42, 0x23

# Value types (5.3.1), those of later editions among them.
VALUE_TYPES = {0x7f: "i32", 0x7e: "i64", 0x7d: "f32", 0x7c: "f64", 0x7b: "v128", 0x70: "funcref", 0x6f: "externref"}
I32, I64, F32, F64, NO_RESULT = 0x7f, 0x7e, 0x7d, 0x7c, 0x40


def is_float(opcode: int) -> bool:
    """Whether the instruction takes or gives a float."""
    named = INSTRUCTIONS.get(opcode)
    return named is not None and any(kind in named.name for kind in ("f32", "f64"))


# What came later, as far as a compiler of today writes it: (feature, name) of an opcode, and of one
# behind a prefix.
_LATER = {
    0x06: ("exceptions", "try"), 0x07: ("exceptions", "catch"), 0x08: ("exceptions", "throw"), 0x09: ("exceptions", "rethrow"),
    0x0a: ("exceptions", "throw_ref"), 0x18: ("exceptions", "delegate"), 0x19: ("exceptions", "catch_all"), 0x1f: ("exceptions", "try_table"),
    0x12: ("tail calls", "return_call"), 0x13: ("tail calls", "return_call_indirect"),
    0x14: ("typed references", "call_ref"), 0x15: ("typed references", "return_call_ref"),
    0x1c: ("reference types", "select with a type"), 0x25: ("reference types", "table.get"), 0x26: ("reference types", "table.set"),
    0xd0: ("reference types", "ref.null"), 0xd1: ("reference types", "ref.is_null"), 0xd2: ("reference types", "ref.func"),
}
_SATURATING = ("i32.trunc_sat_f32_s i32.trunc_sat_f32_u i32.trunc_sat_f64_s i32.trunc_sat_f64_u "
               "i64.trunc_sat_f32_s i64.trunc_sat_f32_u i64.trunc_sat_f64_s i64.trunc_sat_f64_u").split()
_BULK = "memory.init data.drop memory.copy memory.fill table.init elem.drop table.copy".split()
_TABLES = "table.grow table.size table.fill".split()


def later(opcode: int, sub: int | None) -> tuple[str, str] | None:
    """The feature and the name of an instruction of a later edition; `sub` is the number behind a prefix."""
    if opcode == 0xfc and sub is not None:
        for first, feature, names in ((0, "conversions that saturate", _SATURATING), (8, "bulk memory", _BULK), (15, "reference types", _TABLES)):
            if first <= sub < first + len(names):
                return feature, names[sub - first]
    if opcode == 0xfd:
        return "vectors", f"a vector instruction (FD {sub})"
    if opcode == 0xfe:
        return "threads", f"an atomic instruction (FE {sub})"
    if opcode == 0xfb:
        return "garbage collection", f"an instruction on objects (FB {sub})"
    return _LATER.get(opcode)
