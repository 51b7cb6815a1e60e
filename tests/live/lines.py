# SPDX-License-Identifier: Apache-2.0
"""What the machine is told, a line at a time, and what it answers."""
from __future__ import annotations

import functools
from typing import Iterable, NamedTuple, Union

# Cpu in thousandths, memory, and pods.
Amounts = tuple[int, int, int]
NOTHING: Amounts = (0, 0, 0)
# What a pod on a node counts for whose amounts can't be read: the most that a line can say.
MOST: Amounts = (1 << 30, 1 << 44, 1)
PODS, NODES = "pods", "nodes"
KINDS = (PODS, NODES)


def plus(one: Amounts, other: Amounts) -> Amounts:
    return one[0] + other[0], one[1] + other[1], one[2] + other[2]


def minus(one: Amounts, other: Amounts) -> Amounts:
    return one[0] - other[0], one[1] - other[1], one[2] - other[2]


def total(some: Iterable[Amounts]) -> Amounts:
    return functools.reduce(plus, some, NOTHING)


def fits(more: Amounts, used: Amounts, room: Amounts) -> bool:
    return all(used[k] + more[k] <= room[k] for k in range(3))


class Pod(NamedTuple):
    """What an object says of a pod that hasn't ended. `asks` is None where it can't be read, `node` where it waits."""

    name: str
    uid: str
    version: int
    asks: Amounts | None
    node: str | None = None
    is_ours: bool = True

    @property
    def counts(self) -> Amounts:
        """(of one on a node)"""
        return MOST if self.asks is None else self.asks


class Node(NamedTuple):
    """What an object says of a node. `room` is None where no row can say it."""

    name: str
    uid: str
    version: int
    room: Amounts | None


Thing = Union[Pod, Node]


# Lines in.


class Lists(NamedTuple):
    """A list of this kind begins: each item of it is told from here on."""

    kind: str


class Listed(NamedTuple):
    """It ends: all that there was has been told."""

    kind: str


class Told(NamedTuple):
    """An item of a list, or an event of a watch."""

    thing: Thing


class Gone(NamedTuple):
    """A watch says that it is gone, or has ended."""

    kind: str
    name: str
    version: int


class Deaf(NamedTuple):
    """No watch of this kind is open."""

    kind: str


class Hears(NamedTuple):
    """One is, and has caught up."""

    kind: str


class Answer(NamedTuple):
    """Of a bind: `created`, `refused`, `lost`, `over`."""

    ticket: int
    what: str


class WasRead(NamedTuple):
    """What a read gave: `waits`, `gone`, or `on` a node."""

    ask: int
    what: str
    node: str = ""


class Past(NamedTuple):
    """No bind that an instance before this one has asked for may still be done."""


class Aside(NamedTuple):
    """A waiting pod isn't to be tried until it is offered again."""

    name: str
    uid: str


class Offered(NamedTuple):
    """It is."""

    name: str
    uid: str


class Tick(NamedTuple):
    """(for the desk alone)"""

    at: int


class Cycle(NamedTuple):
    """One pod is to get a place: which, and where, is chosen by these."""

    which: int
    where: int


Line = Union[Lists, Listed, Told, Gone, Deaf, Hears, Answer, WasRead, Past, Aside, Offered, Tick, Cycle]


# Lines out.


class Bind(NamedTuple):
    """To be posted once. A server that tests versions does it only of a pod of this one."""

    ticket: int
    name: str
    uid: str
    version: int
    node: str
    asks: Amounts


class Read(NamedTuple):
    """To be asked of the server after this line: the answer names `ask`. One that fences is a write that moves the pod's version, and its
    answer what the pod is then: where versions are tested, no bind that was asked for before is done after it."""

    ask: int
    ticket: int
    name: str
    uid: str
    fences: bool = False


class Fails(NamedTuple):
    """No node has room for it."""

    name: str
    uid: str


class Idle(NamedTuple):
    """No pod may be tried."""


class Shut(NamedTuple):
    """Nothing may be bound now."""


class Full(NamedTuple):
    """There is no room to know one pod more: this one has to be told again."""

    name: str


Output = Union[Bind, Read, Fails, Idle, Shut, Full]
