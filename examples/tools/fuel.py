# SPDX-License-Identifier: Apache-2.0
"""What a rule's dearest call costs: the least fuel with which no answer is cut off."""
from __future__ import annotations

from typing import Callable

# The most that wsched takes. What isn't done with it is said not to end.
MOST = 10**9
# What nearly every rule is done with.
FIRST = 1000


class DoesNotEnd(Exception):
    """A call that isn't done with the most fuel: which."""

    def __init__(self, call: str, most: int) -> None:
        super().__init__(f"{call} isn't done with {most} units of fuel")


def least(is_enough: Callable[[int], bool], most: int = MOST) -> int:
    """The least fuel that is enough. DoesNotEnd: the most isn't."""
    high = min(FIRST, most)
    while not is_enough(high):
        if high == most:
            raise DoesNotEnd("a call", most)
        high = min(most, high * 8)
    low = 1 if high <= FIRST else high // 8
    while low < high:
        fuel = (low + high) // 2
        low, high = (low, fuel) if is_enough(fuel) else (fuel + 1, high)
    return low
