# SPDX-License-Identifier: Apache-2.0
"""What is kept of a pod of one's own until it has a node."""
from __future__ import annotations

import enum
import zlib

from state.heard import Waits


class Turn(enum.Enum):
    """Where a pod that waits for a node stands. In the desk are those that are being tried, kept or under bind; the others wait outside."""

    NEW = "not tried yet"
    TRYING = "told, and not answered since"
    KEPT = "has failed, and stays in the desk"
    RESTING = "has failed, and may not be tried again yet"
    STILL = "has failed, and nothing has changed since"
    DUE = "has failed, and is to be tried again"
    BINDING = "has its place"
    AWAY = "is another instance's to place now"


class Wait:
    """Of a pod without a node: its line, and whose turn it is."""

    __slots__ = ("text", "is_packed", "heard", "priority", "arrival", "created", "is_ours", "attempts", "tried", "until", "moved", "turn", "stamp")

    def __init__(self, line: bytes, heard: Waits, arrival: int) -> None:
        self.text, self.is_packed, self.heard = line, False, heard
        self.priority, self.arrival = heard.priority, arrival
        # when the pod was made, by the API server's clock, and whether it is this instance's to
        # place
        self.created, self.is_ours = heard.created, True
        # how often it was tried and when last; until when it rests, and what had moved before it
        # was tried
        self.attempts = self.tried = self.moved = self.stamp = 0
        self.until = 0.0
        self.turn: Turn | None = None

    @property
    def line(self) -> bytes:
        """As it was heard last."""
        return zlib.decompress(self.text) if self.is_packed else self.text

    @line.setter
    def line(self, line: bytes) -> None:
        self.text = zlib.compress(line, 1) if self.is_packed else line

    def pack(self) -> None:
        """It may wait for long. (Thousands may, of some kilobytes each.)"""
        if not self.is_packed:
            self.text, self.is_packed = zlib.compress(self.text, 1), True


class Pod:
    """A pod of one's own that has no node, as far as is known. `is_told`: the desk has it to place, or has placed it on `place`, where there is a
    bind of it by this ticket."""

    __slots__ = ("namespace", "name", "uid", "is_known", "is_told", "place", "ticket", "wait")

    def __init__(self, namespace: str, name: str, uid: str) -> None:
        self.namespace, self.name, self.uid = namespace, name, uid
        self.is_known = self.is_told = False
        self.place: str | None = None
        self.ticket: int | None = None
        self.wait: Wait | None = None

    def __str__(self) -> str:
        return f"{self.namespace}/{self.name}"
