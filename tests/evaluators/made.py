# SPDX-License-Identifier: Apache-2.0
"""Modules by chance, and a script to ask them about: every integer instruction, blocks, loops, branches, calls, tables and host functions.

The same seed gives the same modules on every machine. A module calls whatever it likes, itself too, so that a call may end by any trap,
by an answer out of range, or by its fuel alone.
"""
# pylint: disable=too-many-return-statements
from __future__ import annotations

import dataclasses
import random
from typing import Callable

I32, I64, NOTHING = 0x7f, 0x7e, 0x40
UNARY = {I32: [0x67, 0x68, 0x69, 0xc0, 0xc1], I64: [0x79, 0x7a, 0x7b, 0xc2, 0xc3, 0xc4]}
BINARY = {I32: [*range(0x6a, 0x79)], I64: [*range(0x7c, 0x8b)]}
DIVIDING = {I32: range(0x6d, 0x71), I64: range(0x7f, 0x83)}
TEST, RELATION = {I32: 0x45, I64: 0x50}, {I32: range(0x46, 0x50), I64: range(0x51, 0x5b)}
LOADS = {I32: [0x28, 0x2c, 0x2d, 0x2e, 0x2f], I64: [0x29, *range(0x30, 0x36)]}
STORES = {I32: [0x36, 0x3a, 0x3b], I64: [0x37, 0x3c, 0x3d, 0x3e]}
EDGES = {I32: [0, 1, -1, 2, 31, 32, 255, 65_535, 2**31 - 1, -2**31], I64: [0, 1, -1, 63, 64, 2**32 - 1, 2**32, 2**63 - 1, -2**63]}
IMPORTS = [(module, it) for module in ("sched", "sched2", "sched3") for it in ("pod", "node")]


def unsigned(number: int) -> bytes:
    """WebAssembly Core 1.0, 5.2.2."""
    found = bytearray()
    while number > 127:
        found.append(number & 127 | 128)
        number >>= 7
    return bytes([*found, number])


def signed(number: int) -> bytes:
    """The same in two's complement."""
    found = bytearray()
    while not -64 <= number < 64:
        found.append(number & 127 | 128)
        number >>= 7
    return bytes([*found, number & 127])


def vector(items: list[bytes]) -> bytes:
    return unsigned(len(items)) + b"".join(items)


def section(number: int, items: list[bytes]) -> bytes:
    contents = vector(items)
    return bytes([number]) + unsigned(len(contents)) + contents if items else b""


def named(word: str) -> bytes:
    return unsigned(len(word)) + word.encode()


def constant(kind: int, number: int) -> bytes:
    bits = 32 if kind == I32 else 64
    number &= (1 << bits) - 1
    return bytes([0x41 if kind == I32 else 0x42]) + signed(number - (1 << bits) if number >> (bits - 1) else number)


@dataclasses.dataclass
class Shape:
    """What the bodies of a module may name. A function is the index of its type; `filter` and `score` are the first two that have bodies."""

    types: list[tuple[list[int], int]]
    imports: list[tuple[str, str]]
    functions: list[int]
    memory: tuple[int, int | None] | None
    globals: list[tuple[int, bool, int]]
    table: list[int | None]
    start: bool

    def type_of(self, function: int) -> tuple[list[int], int]:
        at = function - len(self.imports)
        return ([I32, I32], I32) if at < 0 else self.types[self.functions[at]]


class Body:
    """The instructions of one function, and the labels that are open, of which the last is the innermost."""

    def __init__(self, chance: random.Random, shape: Shape, function: int) -> None:
        self.chance, self.shape = chance, shape
        parameters, result = shape.types[shape.functions[function]]
        self.function, self.labels, self.parameters = function + len(shape.imports), [result], len(parameters)
        self.locals = [*parameters, *(chance.choice([I32, I64]) for _ in range(chance.randrange(4)))]
        self.left = 12 + chance.randrange(40)

    def written(self) -> bytes:
        depth = 3 + self.chance.randrange(3)
        code = b"".join(self.statement(depth) for _ in range(1 + self.chance.randrange(4))) + self.of(self.labels[0], depth) + b"\x0b"
        locals_ = vector([b"\1" + bytes([it]) for it in self.locals[self.parameters:]])
        return unsigned(len(locals_) + len(code)) + locals_ + code

    def of(self, kind: int, depth: int) -> bytes:
        return self.statement(depth) if kind == NOTHING else self.value(kind, depth)

    def one(self, makers: list[tuple[int, Callable[[], bytes]]]) -> bytes:
        """One of them, by weight."""
        return self.chance.choices([it for _, it in makers], [weight for weight, _ in makers])[0]()

    def value(self, kind: int, depth: int) -> bytes:
        """An expression that leaves one value."""
        self.left -= 1
        if depth <= 0 or self.left < 0:
            return self.leaf(kind)
        less, other = depth - 1, self.chance.choice([I32, I64])
        return self.one([
            (5, lambda: self.leaf(kind)),
            (8, lambda: self.value(kind, less) + self.value(kind, less) + bytes([self.chance.choice(BINARY[kind])])),
            (2, lambda: self.division(kind, less)),
            (3, lambda: self.value(kind, less) + bytes([self.chance.choice(UNARY[kind])])),
            (3, lambda: self.told(kind, other, less)),
            (2, lambda: self.value(kind, less) + self.value(kind, less) + self.value(I32, less) + b"\x1b"),
            (3, lambda: self.block(kind, less)),
            (4, lambda: self.branching(kind, less)),
            (3, lambda: self.loop(kind, less)),
            (3, lambda: self.local(0x22, kind, less) or self.leaf(kind)),
            (4, lambda: self.load(kind, less)),
            (5, lambda: self.call(kind, less)),
            (2, lambda: self.indirect(kind, less)),
            (2, lambda: self.leaving(less) + self.leaf(kind)),
            (1, lambda: self.statement(less) + self.value(kind, less)),
        ])

    def statement(self, depth: int) -> bytes:
        """Instructions that leave nothing."""
        self.left -= 1
        if depth <= 0 or self.left < 0:
            return b"\x01"
        less, kind = depth - 1, self.chance.choice([I32, I64])
        return self.one([
            (5, lambda: self.local(0x21, kind, less) or b"\x01"),
            (4, lambda: self.set_global(less)),
            (6, lambda: self.store(kind, less)),
            (3, lambda: self.block(NOTHING, less)),
            (5, lambda: self.branching(NOTHING, less)),
            (6, lambda: self.loop(NOTHING, less)),
            (3, lambda: self.call(NOTHING, less)),
            (2, lambda: self.indirect(NOTHING, less)),
            (3, lambda: self.leaving(less)),
            (2, lambda: self.value(kind, less) + b"\x1a"),
            (1, lambda: self.value(I32, less) + b"\x40\x00\x1a" if self.shape.memory else b"\x01"),
        ])

    def leaf(self, kind: int) -> bytes:
        mine = [k for k, it in enumerate(self.locals) if it == kind]
        shared = [k for k, it in enumerate(self.shape.globals) if it[0] == kind]
        if mine and self.chance.random() < 0.5:
            return b"\x20" + unsigned(self.chance.choice(mine))
        if shared and self.chance.random() < 0.4:
            return b"\x23" + unsigned(self.chance.choice(shared))
        if kind == I32 and self.shape.memory and self.chance.random() < 0.1:
            return b"\x3f\x00"
        some = self.chance.randrange(-64, 64) if self.chance.random() < 0.5 else self.chance.choice(EDGES[kind])
        return constant(kind, some if self.chance.random() < 0.85 else self.chance.getrandbits(64))

    def division(self, kind: int, depth: int) -> bytes:
        """Rarely by zero, and of the least value by -1 now and then."""
        divide = bytes([self.chance.choice(DIVIDING[kind])])
        if self.chance.random() < 0.05:
            return constant(kind, 1 << (31 if kind == I32 else 63)) + constant(kind, -1) + divide
        return self.value(kind, depth) + self.value(kind, depth) + constant(kind, 1) + bytes([0x72 if kind == I32 else 0x84]) + divide

    def told(self, kind: int, other: int, depth: int) -> bytes:
        """What a conversion, a test or a relation tells."""
        if kind == I64:
            return self.value(I32, depth) + self.chance.choice([b"\xac", b"\xad"])
        if self.chance.random() < 0.3:
            return self.value(I64, depth) + b"\xa7"
        if self.chance.random() < 0.3:
            return self.value(other, depth) + bytes([TEST[other]])
        return self.value(other, depth) + self.value(other, depth) + bytes([self.chance.choice(RELATION[other])])

    def inside(self, label: int, kind: int, depth: int) -> bytes:
        self.labels.append(label)
        code = b"".join(self.statement(depth) for _ in range(self.chance.randrange(3))) + self.of(kind, depth)
        self.labels.pop()
        return code

    def block(self, kind: int, depth: int) -> bytes:
        return bytes([0x02, kind]) + self.inside(kind, kind, depth) + b"\x0b"

    def branching(self, kind: int, depth: int) -> bytes:
        code = self.value(I32, depth) + bytes([0x04, kind]) + self.inside(kind, kind, depth)
        if kind != NOTHING or self.chance.random() < 0.5:
            code += b"\x05" + self.inside(kind, kind, depth)
        return code + b"\x0b"

    def loop(self, kind: int, depth: int) -> bytes:
        """Mostly one that a local counts down, which code inside may set otherwise."""
        counters = [k for k, it in enumerate(self.locals) if it == I32]
        if not counters or self.chance.random() < 0.1:
            return bytes([0x03, kind]) + self.inside(NOTHING, kind, depth) + b"\x0b"
        counter = unsigned(self.chance.choice(counters))
        again = b"\x20" + counter + constant(I32, -1) + b"\x6a\x22" + counter + constant(I32, 0) + b"\x4a\x0d\x00"
        body = self.inside(NOTHING, NOTHING, depth) + again
        self.labels.append(NOTHING)
        body += self.of(kind, depth)
        self.labels.pop()
        return constant(I32, 1 + self.chance.randrange(9)) + b"\x21" + counter + bytes([0x03, kind]) + body + b"\x0b"

    def local(self, opcode: int, kind: int, depth: int) -> bytes:
        mine = [k for k, it in enumerate(self.locals) if it == kind]
        return self.value(kind, depth) + bytes([opcode]) + unsigned(self.chance.choice(mine)) if mine else b""

    def set_global(self, depth: int) -> bytes:
        mutable = [k for k, it in enumerate(self.shape.globals) if it[1]]
        if not mutable:
            return b"\x01"
        at = self.chance.choice(mutable)
        return self.value(self.shape.globals[at][0], depth) + b"\x24" + unsigned(at)

    def address(self, depth: int) -> bytes:
        if self.chance.random() < 0.5:
            return constant(I32, self.chance.randrange(65_536))
        return self.value(I32, depth) + (constant(I32, 0x7fff) + b"\x71" if self.chance.random() < 0.95 else b"")

    def far(self) -> bytes:
        """An alignment and an offset."""
        return b"\0" + unsigned(self.chance.choice([100, 65_530, 2**32 - 1]) if self.chance.random() < 0.05 else self.chance.randrange(64))

    def load(self, kind: int, depth: int) -> bytes:
        return self.address(depth) + bytes([self.chance.choice(LOADS[kind])]) + self.far() if self.shape.memory else self.leaf(kind)

    def store(self, kind: int, depth: int) -> bytes:
        if not self.shape.memory:
            return b"\x01"
        return self.address(depth) + self.value(kind, depth) + bytes([self.chance.choice(STORES[kind])]) + self.far()

    def given(self, parameters: list[int], depth: int) -> bytes:
        return b"".join(self.value(it, depth) for it in parameters)

    def call(self, kind: int, depth: int) -> bytes:
        if kind == I32 and self.shape.imports and self.chance.random() < 0.6:
            to = self.chance.choice([0, 8, 1000, 40_000, 65_500]) if self.chance.random() < 0.95 else self.chance.getrandbits(32)
            limit = self.chance.choice([0, 40, 8192, 8192, 8192, -1])
            return constant(I32, to) + constant(I32, limit) + b"\x10" + unsigned(self.chance.randrange(len(self.shape.imports)))
        first = len(self.shape.imports)
        found = [k for k in range(first, first + len(self.shape.functions)) if self.shape.type_of(k)[1] == kind]
        if not found:
            return self.of(kind, 0)
        # (mostly later ones, so that most calls end)
        later = [k for k in found if k > self.function]
        if not later and self.chance.random() > 0.05:
            return self.of(kind, 0)
        at = self.chance.choice(later if later and self.chance.random() > 0.02 else found)
        return self.given(self.shape.type_of(at)[0], depth) + b"\x10" + unsigned(at)

    def indirect(self, kind: int, depth: int) -> bytes:
        found = [k for k, it in enumerate(self.shape.types) if it[1] == kind]
        if not self.shape.table or not found:
            return self.of(kind, 0)
        at, members = self.chance.choice(found), self.shape.table
        same = [k for k, it in enumerate(members) if it is not None and it > self.function and self.shape.type_of(it) == self.shape.types[at]]
        if not same and self.chance.random() > 0.1:
            return self.of(kind, 0)
        which = self.chance.choice(same) if same and self.chance.random() < 0.95 else self.chance.randrange(len(members) + 2)
        return self.given(self.shape.types[at][0], depth) + constant(I32, which) + b"\x11" + unsigned(at) + b"\0"

    def leaving(self, depth: int) -> bytes:
        """A branch that is taken or isn't, over operands that it leaves behind; what stands behind one that is always taken has any type."""
        if self.chance.random() < 0.02:
            return b"\x00"
        label = self.chance.randrange(len(self.labels))
        carried = self.labels[-1 - label]
        over = self.leaf(I64) if self.chance.random() < 0.3 else b""
        operand = b"" if carried == NOTHING else self.value(carried, depth)
        if self.chance.random() < 0.6:
            dropped = (b"" if carried == NOTHING else b"\x1a") + (b"\x1a" if over else b"")
            return over + operand + self.value(I32, depth) + b"\x0d" + unsigned(label) + dropped
        if self.chance.random() < 0.3:
            return over + (b"" if self.labels[0] == NOTHING else self.value(self.labels[0], depth)) + b"\x0f"
        if self.chance.random() < 0.4:
            return over + operand + b"\x0c" + unsigned(label)
        same = [unsigned(k) for k in range(len(self.labels)) if self.labels[-1 - k] == carried]
        listed = [self.chance.choice(same) for _ in range(self.chance.randrange(4))]
        return over + operand + self.value(I32, depth) + b"\x0e" + vector(listed) + unsigned(label)


def shape_by_chance(chance: random.Random) -> Shape:
    types: list[tuple[list[int], int]] = [([], I32), ([], I64), ([I32, I32], I32), ([], NOTHING)]
    types += [([chance.choice([I32, I64]) for _ in range(chance.randrange(4))], chance.choice([NOTHING, I32, I64])) for _ in range(chance.randrange(4))]
    # (two listings of one type are the same type)
    types += [chance.choice(types)] if chance.random() < 0.3 else []
    imports = [chance.choice(IMPORTS) for _ in range(chance.randrange(4))]
    functions = [0, 1, *(chance.randrange(len(types)) for _ in range(chance.randrange(5))), 3]
    memory = (chance.choice([1, 1, 1, 0, 2]), chance.choice([None, 2, 3, 40])) if chance.random() < 0.9 else None
    globals_ = [(chance.choice([I32, I64]), chance.random() < 0.8, chance.getrandbits(64)) for _ in range(chance.randrange(4))]
    members: list[int | None] = [None if chance.random() < 0.2 else chance.randrange(len(imports) + len(functions)) for _ in range(chance.randrange(6))]
    return Shape(types, imports, functions, memory, globals_, members, chance.random() < 0.15)


def module_by_chance(chance: random.Random) -> bytes:
    """One that is accepted, if no operand stack is too high and the module isn't too long, which none is."""
    shape = shape_by_chance(chance)
    bodies = [Body(chance, shape, k).written() for k in range(len(shape.functions))]
    first = len(shape.imports)
    least, most = shape.memory or (0, None)
    limits = b"\0" + unsigned(least) if most is None else b"\1" + unsigned(least) + unsigned(most)
    exports = [named("filter") + b"\0" + unsigned(first), named("score") + b"\0" + unsigned(first + 1)]
    elements = [b"\0" + constant(I32, k) + b"\x0b" + vector([unsigned(it)]) for k, it in enumerate(shape.table) if it is not None]
    data = [b"\0" + constant(I32, chance.randrange(65_500)) + b"\x0b" + vector([bytes([chance.randrange(256)]) for _ in range(8)])]
    kinds = [b"\x60" + vector([bytes([it]) for it in parameters]) + (b"\0" if result == NOTHING else bytes([1, result])) for parameters, result in shape.types]
    start = unsigned(first + len(shape.functions) - 1)
    return b"".join([
        b"\0asm\1\0\0\0", section(1, kinds), section(2, [named(a) + named(b) + b"\0\2" for a, b in shape.imports]),
        section(3, [unsigned(it) for it in shape.functions]), section(4, [b"\x70\0" + unsigned(len(shape.table))] if shape.table else []),
        section(5, [limits] if shape.memory else []),
        section(6, [bytes([kind, is_mutable]) + constant(kind, it) + b"\x0b" for kind, is_mutable, it in shape.globals]),
        section(7, exports if chance.random() < 0.7 else [chance.choice(exports)]),
        b"\x08" + unsigned(len(start)) + start if shape.start else b"", section(9, elements), section(10, bodies),
        section(11, data if least and chance.random() < 0.5 else [])])


def modules(seed: int, count: int) -> list[bytes]:
    chance = random.Random(seed)
    return [module_by_chance(chance) for _ in range(count)]
