# SPDX-License-Identifier: Apache-2.0
"""What a rule says of itself in custom sections of its module: which labels it reads, and why it rejects.

wsched passes over such sections, and --strip-all keeps them. READS_LABEL and REASON of sched.h write them, and reads_label! and reason! of
sched.rs.

    wsched.labels       keys of labels, of a pod or a node, each ended by a newline; an empty one stands for nothing
    wsched.reason.2     a text of 1 to 200 bytes: what the answer 2 means; wsched.reason.3 likewise

Who wrote a module is anybody: what can't be shown as it is, is left out, and said to be.
"""
from __future__ import annotations

import os
import re
from typing import Iterator, NamedTuple, Sequence

LABELS, REASON = "wsched.labels", "wsched.reason."
# How long they may be, in bytes: a label's key as in a row, and a reason.
LONGEST_KEY, LONGEST_REASON = 63, 200
CODES = {"2": 2, "3": 3}
HEADER = b"\0asm\1\0\0\0"


class Said(NamedTuple):
    """The keys that it reads, or None where it doesn't say which; of the answers 2 and 3 the reasons; and what was ignored, in words."""

    labels: tuple[str, ...] | None
    reasons: dict[int, str]
    faults: tuple[str, ...]


NOTHING = Said(None, {}, ())


class _Ends(Exception):
    """The module ends too early."""


def _number(module: bytes, at: int) -> tuple[int, int]:
    """An unsigned number in LEB128, of up to 32 bits, and the place behind it."""
    value = 0
    for count in range(5):
        if at >= len(module):
            break
        byte = module[at]
        value |= (byte & 127) << 7 * count
        at += 1
        if byte < 128:
            return value, at
    raise _Ends


def _sections(module: bytes) -> Iterator[tuple[int, int, int]]:
    """Of each section its number, and where what it holds begins and ends, up to where the module can't be read."""
    at = len(HEADER)
    try:
        while module.startswith(HEADER) and at < len(module):
            kind, (size, start) = module[at], _number(module, at + 1)
            at = start + size
            if at > len(module):
                return
            yield kind, start, at
    except _Ends:
        return


def custom_sections(module: bytes) -> Iterator[tuple[str, bytes]]:
    """Of each custom section the name and what it holds, up to where the module can't be read."""
    try:
        for kind, start, end in _sections(module):
            if kind == 0:
                length, start = _number(module[:end], start)
                yield module[start:start + length].decode("utf-8", "replace"), module[start + length:end]
    except _Ends:
        return


def imported(module: bytes) -> Iterator[tuple[str, str]]:
    """The modules and names of the functions that it imports (WebAssembly Core 1.0, 5.5.5), up to where it can't be read: wsched accepts no
    imports but functions."""
    try:
        for kind, start, end in _sections(module):
            if kind == 2:
                held = module[:end]
                count, at = _number(held, start)
                for _ in range(count):
                    both: list[str] = []
                    for _ in range(2):
                        length, at = _number(held, at)
                        both.append(held[at:at + length].decode("utf-8", "replace"))
                        at += length
                    yield both[0], both[1]
                    # (behind its kind is its type's index)
                    _, at = _number(held, at + 1)
    except _Ends:
        return


def exported(module: bytes) -> Iterator[str]:
    """The names that it exports (WebAssembly Core 1.0, 5.5.10), up to where it can't be read."""
    try:
        for kind, start, end in _sections(module):
            if kind == 7:
                held = module[:end]
                count, at = _number(held, start)
                for _ in range(count):
                    length, at = _number(held, at)
                    yield held[at:at + length].decode("utf-8", "replace")
                    # (behind its kind is its index)
                    _, at = _number(held, at + length + 1)
    except _Ends:
        return


def _labels(held: bytes) -> tuple[str, ...]:
    """The keys; ValueError says why it says nothing."""
    *keys, rest = held.split(b"\n")
    if rest:
        raise ValueError("its last key isn't ended by a newline")
    long = [key for key in keys if len(key) > LONGEST_KEY]
    if long:
        raise ValueError(f"a key has {len(long[0])} bytes, and a label's has at most {LONGEST_KEY}")
    return tuple(dict.fromkeys(_text(key) for key in keys if key))


def _text(held: bytes) -> str:
    """UTF-8 that a terminal and an event can show; ValueError says why it isn't."""
    try:
        text = held.decode("utf-8")
    except UnicodeDecodeError as why:
        raise ValueError("it is no UTF-8") from why
    if re.search(r"[\x00-\x1f\x7f-\x9f\u2028\u2029\u202a-\u202e\u2066-\u2069]", text):
        raise ValueError("it has control characters")
    return text


def _reason(held: bytes) -> str:
    if not 1 <= len(held) <= LONGEST_REASON:
        raise ValueError(f"it has {len(held)} bytes, and a reason has 1 to {LONGEST_REASON}")
    return _text(held)


def of_rule(module: bytes) -> Said:
    """What a module says."""
    labels: list[bytes] = []
    reasons: dict[int, str] = {}
    faults: list[str] = []
    seen: set[str] = set()
    for name, held in custom_sections(module):
        if name == LABELS:
            labels.append(held)
        elif name.startswith(REASON):
            code = name[len(REASON):]
            try:
                if code not in CODES:
                    raise ValueError("a filter rejects by 2 and 3 alone")
                if code in seen:
                    raise ValueError("there is another one")
                seen.add(code)
                reasons[CODES[code]] = _reason(held)
            except ValueError as why:
                faults.append(f"the section {_shown(name)} is ignored: {why}")
    keys = None
    try:
        keys = _labels(b"".join(labels)) if labels else None
    except ValueError as why:
        faults.append(f"the section {LABELS} is ignored: {why}")
    return Said(keys, reasons, tuple(faults))


def _shown(name: str) -> str:
    """A section's name, which is anything, as it can be shown."""
    return re.sub(r"[^ -~]", "?", name)[:60]


def of_file(path: str | os.PathLike[str]) -> Said:
    """What the module in a file says. OSError: it can't be read."""
    with open(path, "rb") as it:
        return of_rule(it.read())


def of_spec(spec: str) -> Said:
    """What the module of a word NAME:WEIGHT:FUEL:FILE says: nothing, where it can't be read."""
    try:
        return of_file(spec.split(":", 3)[3])
    except (OSError, IndexError):
        return NOTHING


def module_of(spec: str) -> bytes:
    """The module of a word NAME:WEIGHT:FUEL:FILE; nothing, where it can't be read."""
    try:
        with open(spec.split(":", 3)[3], "rb") as it:
            return it.read()
    except (OSError, IndexError):
        return b""


def has_filter(module: bytes) -> bool:
    return "filter" in exported(module)


def has_score(module: bytes) -> bool:
    return "score" in exported(module)


def is_steady(module: bytes) -> bool:
    """Whether its answers are the same whatever uid the pod has, and whatever is used of the node: it reads records of version 3 alone."""
    return bool(module) and all(of == "sched3" for of, _ in imported(module))


def reasons_by_name(specs: Sequence[str]) -> dict[str, dict[int, str]]:
    """Of each word NAME:WEIGHT:FUEL:FILE the reasons of its rule, by the rule's name."""
    return {spec.split(":", 1)[0]: of_spec(spec).reasons for spec in specs}
