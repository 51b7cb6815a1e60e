# SPDX-License-Identifier: Apache-2.0
"""A site's settings of its rules: a file of lines NAME=VALUE, which become the labels `/cfg/NAME` of each node's row.

Lines without anything, and those that begin with `#`, are skipped. A NAME has 1 to 58 bytes and a VALUE up to 63, of the letters that a
script's texts have; there are at most 8.
"""
from __future__ import annotations

import re

LINE = re.compile(r"([A-Za-z0-9._/-]{1,58})=([A-Za-z0-9._/-]{0,63})")
MOST = 8


class BadSetting(Exception):
    """A line that is no setting: its number, and what is wrong."""


def read(file: str) -> list[tuple[str, str]]:
    found: dict[str, str] = {}
    with open(file, encoding="utf-8") as lines:
        for number, line in enumerate(lines, 1):
            text = line.strip()
            if not text or text.startswith("#"):
                continue
            parts = LINE.fullmatch(text)
            if not parts:
                raise BadSetting(f"{file}: line {number} is no NAME=VALUE: {text}")
            if parts[1] in found:
                raise BadSetting(f"{file}: line {number} sets {parts[1]} once more")
            found[parts[1]] = parts[2]
            if len(found) > MOST:
                raise BadSetting(f"{file}: line {number} is one more than {MOST} settings")
    return labels(found)


def labels(settings: dict[str, str]) -> list[tuple[str, str]]:
    return [(f"/cfg/{name}", settings[name]) for name in sorted(settings)]
