# SPDX-License-Identifier: Apache-2.0
"""A page of a list, taken apart: each item as it stands there, so that whoever reads it next reads what the API server wrote."""
from __future__ import annotations

import json
import re
from typing import Any, Iterator, NamedTuple

Json = dict[str, Any]
# Blanks between the parts of a JSON text (RFC 8259, section 2).
BLANKS = re.compile(r"[ \t\n\r]*")
VALUE = json.JSONDecoder()


class Item(NamedTuple):
    """An object, and the text that it was read of."""

    thing: Json
    text: str


class Text:
    """A JSON text that is read from its beginning on. Its calls raise ValueError where it is none."""

    def __init__(self, text: str) -> None:
        self.text, self.at = text, 0

    def next(self) -> str:
        """The next character behind blanks."""
        found = BLANKS.match(self.text, self.at)
        self.at = found.end() if found else self.at
        return self.text[self.at : self.at + 1]

    def takes(self, mark: str) -> bool:
        if self.next() != mark:
            return False
        self.at += 1
        return True

    def take(self, mark: str) -> None:
        if not self.takes(mark):
            raise ValueError(f"no {mark} at {self.at} of a list")

    def value(self) -> Any:
        self.next()
        value, self.at = VALUE.raw_decode(self.text, self.at)
        return value

    def items(self) -> Iterator[Item]:
        """Those of an array, each read when it is asked for."""
        self.take("[")
        if self.takes("]"):
            return
        while True:
            self.next()
            start = self.at
            thing = self.value()
            yield Item(thing, self.text[start : self.at])
            if not self.takes(","):
                self.take("]")
                return


class Page:
    """A page of a list: its items, and the list's metadata, which is there once they were read."""

    def __init__(self, data: bytes) -> None:
        self.text = Text(data.decode())
        self.meta: Json = {}

    def items(self) -> Iterator[Item]:
        self.text.take("{")
        while True:
            key = self.text.value()
            self.text.take(":")
            if key == "items" and self.text.next() == "[":
                yield from self.text.items()
            else:
                value = self.text.value()
                self.meta = value if key == "metadata" else self.meta
            if not self.text.takes(","):
                return self.text.take("}")
