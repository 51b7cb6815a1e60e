# SPDX-License-Identifier: Apache-2.0
"""Integer operations (WebAssembly Core 1.0, 4.3.2; sign extension: Core 2.0, 4.3.2). Values are without sign, below 2^N."""
# pylint: disable=invalid-name
# (operands have one letter)
from __future__ import annotations

from typing import Callable, Iterator


class Trap(Exception):
    """A call that is cut off: the number and the name of the trap."""

    def __init__(self, number: int, name: str) -> None:
        super().__init__(f"{number} {name}")
        self.number, self.name = number, name


Unary = Callable[[int], int]
Binary = Callable[[int, int], int]
MASK32, MASK64 = 2**32 - 1, 2**64 - 1


def signed(value: int, width: int) -> int:
    """The number that these bits are in two's complement."""
    return value - (1 << width) if value >> (width - 1) else value


def _relations(width: int) -> list[Binary]:
    def s(it: int) -> int:
        return signed(it, width)

    return [lambda a, b: int(a == b), lambda a, b: int(a != b), lambda a, b: int(s(a) < s(b)), lambda a, b: int(a < b),
            lambda a, b: int(s(a) > s(b)), lambda a, b: int(a > b), lambda a, b: int(s(a) <= s(b)), lambda a, b: int(a <= b),
            lambda a, b: int(s(a) >= s(b)), lambda a, b: int(a >= b)]


def _counts(width: int) -> list[Unary]:
    """clz, ctz, popcnt."""
    return [lambda it: width - it.bit_length(), lambda it: (it & -it).bit_length() - 1 if it else width, lambda it: bin(it).count("1")]


def _divisions(width: int) -> list[Binary]:
    """div_s, div_u, rem_s, rem_u: rounded towards zero, the remainder with the dividend's sign."""
    mask = (1 << width) - 1

    def tested(b: int) -> None:
        if b == 0:
            raise Trap(2, "DivideByZero")

    def quotient(a: int, b: int) -> int:
        n, d = signed(a, width), signed(b, width)
        return abs(n) // abs(d) * (1 if (n < 0) == (d < 0) else -1)

    def div_s(a: int, b: int) -> int:
        tested(b)
        if a == 1 << (width - 1) and b == mask:
            raise Trap(3, "IntegerOverflow")
        return quotient(a, b) & mask

    def div_u(a: int, b: int) -> int:
        tested(b)
        return a // b

    def rem_s(a: int, b: int) -> int:
        tested(b)
        return (signed(a, width) - quotient(a, b) * signed(b, width)) & mask

    def rem_u(a: int, b: int) -> int:
        tested(b)
        return a % b

    return [div_s, div_u, rem_s, rem_u]


def _arithmetic(width: int) -> list[Binary]:
    """From add to rotr, in the order of their opcodes."""
    mask = (1 << width) - 1

    def rotl(a: int, k: int) -> int:
        return (a << k % width | a >> (width - k % width)) & mask

    return [lambda a, b: (a + b) & mask, lambda a, b: (a - b) & mask, lambda a, b: a * b & mask, *_divisions(width),
            lambda a, b: a & b, lambda a, b: a | b, lambda a, b: a ^ b, lambda a, b: a << b % width & mask,
            lambda a, b: signed(a, width) >> b % width & mask, lambda a, b: a >> b % width, rotl, lambda a, b: rotl(a, width - b % width)]


def _extended(bits: int, mask: int) -> Unary:
    """The lowest bits, the highest of them copied into all above."""
    return lambda it: signed(it & ((1 << bits) - 1), bits) & mask


def _unary() -> Iterator[tuple[int, Unary]]:
    for first, width in ((0x67, 32), (0x79, 64)):
        yield from ((first + k, it) for k, it in enumerate(_counts(width)))
    for opcode in (0x45, 0x50):
        yield opcode, lambda it: int(it == 0)
    yield 0xa7, lambda it: it & MASK32
    yield 0xac, _extended(32, MASK64)
    yield 0xad, lambda it: it
    for opcode, bits, mask in ((0xc0, 8, MASK32), (0xc1, 16, MASK32), (0xc2, 8, MASK64), (0xc3, 16, MASK64), (0xc4, 32, MASK64)):
        yield opcode, _extended(bits, mask)


def _binary() -> Iterator[tuple[int, Binary]]:
    for first, width in ((0x46, 32), (0x51, 64)):
        yield from ((first + k, it) for k, it in enumerate(_relations(width)))
    for first, width in ((0x6a, 32), (0x7c, 64)):
        yield from ((first + k, it) for k, it in enumerate(_arithmetic(width)))


UNARY: dict[int, Unary] = dict(_unary())
BINARY: dict[int, Binary] = dict(_binary())
