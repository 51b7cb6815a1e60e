# SPDX-License-Identifier: Apache-2.0
"""Modules in their bytes (WebAssembly Core 1.0, chapter 5), and what the program makes of them: for the rows that have a check.

A row's check is called with the program; `tell` ends it with what came otherwise.
"""
from __future__ import annotations

import pathlib
import subprocess
import sys
import tempfile
from typing import NamedTuple

HEADER = b"\0asm\x01\0\0\0"
I32, I64, EMPTY = 0x7F, 0x7E, 0x40
NODE = '{"op":"node","v":1,"name":"a","cpu":"4","mem":"8Gi","pods":110}\n'
# Two pods that no set of rules can take for one.
PODS = """{"op":"pod","v":2,"uid":"p1","containers":[["100m","64Mi"]]}
{"op":"pod","v":3,"uid":"p2","containers":[["200m","64Mi"]]}
{"op":"cycle"}
{"op":"cycle"}
"""


def unsigned(number: int) -> bytes:
    """A number in as few bytes as spell it."""
    return bytes([number]) if number < 128 else bytes([number % 128 + 128]) + unsigned(number >> 7)


def signed(number: int) -> bytes:
    """A number that may be below 0 in as few bytes as spell it."""
    low = number & 127
    if -64 <= number < 64:
        return bytes([low])
    return bytes([low + 128]) + signed(number >> 7)


def constant(kind: int, bits: int) -> bytes:
    """The instruction that gives these bits."""
    width = 32 if kind == I32 else 64
    return bytes([0x41 if kind == I32 else 0x42]) + signed(bits - (bits >> (width - 1) << width))


def vector(items: list[bytes]) -> bytes:
    """So many, one behind the other."""
    return unsigned(len(items)) + b"".join(items)


def name(text: str) -> bytes:
    """A name with its length."""
    return unsigned(len(text)) + text.encode()


def section(number: int, contents: bytes) -> bytes:
    """A section with its size."""
    return bytes([number]) + unsigned(len(contents)) + contents


def function_type(parameters: list[int], results: list[int]) -> bytes:
    """The type of a function."""
    return b"\x60" + vector([bytes([it]) for it in parameters]) + vector([bytes([it]) for it in results])


def body(instructions: bytes, local_types: bytes = b"\0") -> bytes:
    """A function's body, with its locals and its end."""
    return unsigned(len(local_types) + len(instructions) + 1) + local_types + instructions + b"\x0b"


def module(*sections: bytes) -> bytes:
    """The module with these sections."""
    return HEADER + b"".join(sections)


def filter_of(instructions: bytes, local_types: bytes = b"\0", *, pages: int = 1, behind: bytes = b"") -> bytes:
    """The module whose one function is `filter`, with so many pages of memory and what stands behind its code."""
    parts = [section(1, vector([function_type([], [I32])])), section(3, vector([b"\0"])), section(5, b"\x01\0" + unsigned(pages))]
    return module(*parts, section(7, vector([name("filter") + b"\0\0"])), section(10, vector([body(instructions, local_types)])), behind)


class Ended(NamedTuple):
    """What a run came to."""

    status: int
    stdout: str
    stderr: str


def run(program: str, words: list[str], given: str = "") -> Ended:
    """Runs the program. In what it is given `\\udcff` is the byte FF."""
    it = subprocess.run([program, *words], input=given.encode(errors="surrogateescape"), capture_output=True, timeout=120, check=False)
    return Ended(it.returncode, it.stdout.decode(errors="replace"), it.stderr.decode(errors="replace"))


def run_with(program: str, bytes_of_it: bytes, given: str, fuel: int = 1_000_000_000) -> Ended:
    """Runs a script by the one plugin `r` of this module."""
    with tempfile.NamedTemporaryFile(dir=".", suffix=".wasm") as file:
        file.write(bytes_of_it)
        file.flush()
        return run(program, ["run", f"r:1:{fuel}:{pathlib.Path(file.name).name}"], given)


def checked(program: str, bytes_of_it: bytes) -> str:
    """What `check` says of a module."""
    with tempfile.NamedTemporaryFile(dir=".", suffix=".wasm") as file:
        file.write(bytes_of_it)
        file.flush()
        return run(program, ["check", file.name]).stdout.rstrip("\n")


def tell(wrong: list[str]) -> None:
    """Ends a check: with status 1 where something came otherwise."""
    for it in wrong[:10]:
        print(it)
    sys.exit(1 if wrong else 0)
