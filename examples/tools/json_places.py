# SPDX-License-Identifier: Apache-2.0
"""Where each value of a line's JSON object stands."""
from __future__ import annotations

import json
import re
from typing import Any, NamedTuple

DECODER, SPACE = json.JSONDecoder(), re.compile(r"[ \t\n\r]*")


class Placed(NamedTuple):
    """A value, the columns at which it begins and ends, from 0, and the items where it is an array."""

    value: Any
    start: int
    end: int
    items: tuple[Placed, ...] = ()


class Field(NamedTuple):
    """A key, the column at which its text begins, and its value."""

    key: str
    start: int
    value: Placed


def fields_of(line: str) -> list[Field]:
    """The fields of the object that a line is, in their order; none where it is JSON but no object. Raises json.JSONDecodeError where it is
    no JSON."""
    json.loads(line)
    at = skipped(line, 0)
    found: list[Field] = []
    if line[at] != "{":
        return found
    at = skipped(line, at + 1)
    while line[at] != "}":
        key, end = DECODER.raw_decode(line, at)
        value = placed(line, skipped(line, skipped(line, end) + 1))
        found.append(Field(key, at, value))
        at = skipped(line, value.end)
        if line[at] == ",":
            at = skipped(line, at + 1)
    return found


def placed(line: str, at: int) -> Placed:
    if line[at] != "[":
        value, end = DECODER.raw_decode(line, at)
        return Placed(value, at, end)
    items: list[Placed] = []
    to = skipped(line, at + 1)
    while line[to] != "]":
        items.append(placed(line, to))
        to = skipped(line, items[-1].end)
        if line[to] == ",":
            to = skipped(line, to + 1)
    return Placed([it.value for it in items], at, to + 1, tuple(items))


def skipped(line: str, at: int) -> int:
    found = SPACE.match(line, at)
    assert found
    return found.end()
