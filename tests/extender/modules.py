# SPDX-License-Identifier: Apache-2.0
"""Rules as bytes, which no compiler has to be there for (WebAssembly Core 1.0, 5.5): a filter or a
score of a given body, with or without sections of its own."""
import pathlib

FILTER, SCORE = (b"filter", 0x7F), (b"score", 0x7E)
UNREACHABLE, FOREVER = bytes([0x00]), bytes([0x03, 0x40, 0x0C, 0x00, 0x0B, 0x00])


def answering(code: int) -> bytes:
    """A body that answers a small number."""
    return bytes([0x41, code])


def module(body: bytes, more: bytes = b"", what: tuple[bytes, int] = FILTER) -> bytes:
    """A module whose filter has this body; behind it stands what else it says."""
    code, (name, kind) = bytes([0]) + body + bytes([0x0B]), what
    sections = [
        (1, bytes([1, 0x60, 0, 1, kind])),
        (3, bytes([1, 0])),
        (7, bytes([1, len(name)]) + name + bytes([0, 0])),
        (10, bytes([1, len(code)]) + code),
    ]
    return (
        b"\0asm\1\0\0\0"
        + b"".join(bytes([number, len(held)]) + held for number, held in sections)
        + more
    )


def rule(folder: pathlib.Path, name: str, body: bytes, more: bytes = b"") -> str:
    """Writes it, and gives the word that names it."""
    return written(folder, name, module(body, more))


def score(folder: pathlib.Path, name: str, body: bytes) -> str:
    """The same of a score."""
    return written(folder, name, module(body, what=SCORE))


def written(folder: pathlib.Path, name: str, held: bytes) -> str:
    """The word that names a module."""
    file = folder / f"{name}.wasm"
    file.write_bytes(held)
    return f"{name}:1:1000:{file}"
