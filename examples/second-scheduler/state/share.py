# SPDX-License-Identifier: Apache-2.0
"""Several instances under one scheduler name: which nodes are whose, and whose turn it is to place a pod.

Nobody deals anything out, and nothing is kept of it: both follow from names, uids and the time, by the same sum in each instance. Where
their clocks disagree, two may bind one pod, and the API server refuses it to one of them; or none may for as long as they disagree.
"""
from __future__ import annotations

import argparse
import dataclasses
import hashlib

# For how long one instance has a pod to itself before the next has it, in seconds.
PERIOD = 30.0


def number_of(text: str) -> int:
    """The first eight bytes of the text's SHA-256 as a number, the first byte the highest: the same at all times and everywhere."""
    return int.from_bytes(hashlib.sha256(text.encode()).digest()[:8], "big")


@dataclasses.dataclass(frozen=True)
class Share:
    """Instance `index` of `count`, from 1 on. Its nodes are those whose names fall to it, unless a selector names them."""

    index: int = 1
    count: int = 1
    is_by_name: bool = True

    def __str__(self) -> str:
        return f"{self.index}/{self.count}"

    @property
    def suffix(self) -> str:
        """Behind the name of what replicas of one instance have in common."""
        return f"-{self.index}-of-{self.count}" if self.count > 1 else ""

    def has_node(self, name: str) -> bool:
        return self.count == 1 or not self.is_by_name or number_of(name) % self.count == self.index - 1

    def is_first(self, uid: str) -> bool:
        """Whether a new pod's first turn is here."""
        return number_of(uid) % self.count == self.index - 1

    def has_gone_round(self, age: float) -> bool:
        """Whether a pod of this age has had a turn at each instance, or has its last one."""
        return age >= (self.count - 1) * PERIOD

    def turn(self, uid: str, age: float) -> tuple[bool, float]:
        """Whether a pod of this age is to be placed here, and for how many seconds that stays so."""
        period = int(age // PERIOD)
        ahead = (self.index - 1 - number_of(uid) - period) % self.count
        return ahead == 0, (period + max(ahead, 1)) * PERIOD - age


ALONE = Share()


def words(text: str) -> Share:
    """I/N."""
    index, slash, count = text.partition("/")
    if not slash or not index.isdecimal() or not count.isdecimal() or not 1 <= int(index) <= int(count) <= 1000:
        raise argparse.ArgumentTypeError(f"{text!r} is no I/N with I from 1 to N, and N up to 1000")
    return Share(int(index), int(count))
