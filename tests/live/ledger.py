# SPDX-License-Identifier: Apache-2.0
"""The rules of the crate `ledger` once more, by hand from its definitions, in front of a machine that chooses by chance: what it is told is
handed to `owed`, which looks whether it is so."""
from __future__ import annotations

import dataclasses
from typing import Callable, Union

from lines import (NODES, PODS, Amounts, Answer, Aside, Bind, Cycle, Deaf, Fails, Full, Gone, Hears, Idle, Line, Listed, Lists, Node, Offered, Output, Past,
                   Pod, Read, Shut, Told, WasRead, fits, total)

SENT, CREATED, IN_DOUBT = "sent", "created", "in doubt"


@dataclasses.dataclass
class Known:
    """A pod: `node` where it stands or a bind of it is open, `ticket` where one is."""

    version: int
    listed: int
    asks: Amounts
    node: str = ""
    ticket: int = 0
    asking: str = SENT
    withheld: bool = False

    @property
    def stands(self) -> bool:
        return bool(self.node) and not self.ticket


@dataclasses.dataclass
class Seen:
    """A node's row."""

    version: int
    listed: int
    room: Amounts


@dataclasses.dataclass
class Heard:
    """Of a kind of objects."""

    lists: int = 0
    listing: bool = False
    fresh: bool = False
    listed: bool = False
    hears: bool = False

    @property
    def is_heard(self) -> bool:
        return self.hears and self.listed


@dataclasses.dataclass
class Stands:
    """It is owed that a pod is there and takes no more, or nowhere."""

    uid: str
    node: str
    takes: Amounts


@dataclasses.dataclass
class Off:
    """It is owed that a pod neither stands nor can come to stand."""

    uid: str


@dataclasses.dataclass
class Ends:
    """It is owed that a list of pods has named each."""


@dataclasses.dataclass
class Has:
    """It is owed that a node has so much."""

    node: str
    room: Amounts


Owed = Union[Stands, Off, Ends, Has]


class Ledger:
    """By uid. It is a machine to a world: it takes lines and gives outputs."""

    def __init__(self, most: int, owed: Callable[[Ledger, Owed], None]) -> None:
        self.most, self.owed = most, owed
        self.known: dict[str, Known] = {}
        self.seen: dict[str, Seen] = {}
        self.heard = {PODS: Heard(), NODES: Heard()}
        self.is_rested = False
        self.left_out, self.left_out_in = False, 0
        self.tickets = self.asks = 0
        # what a machine has beside: the names of uids, which pods aren't to be tried, and the reads
        # that were asked for
        self.names: dict[str, str] = {}
        self.aside: set[str] = set()
        self.reads: dict[int, tuple[str, int]] = {}

    # What a world asks of a machine.

    def take(self, line: Line) -> list[Output]:
        match line:
            case Lists(kind):
                self.begin(self.heard[kind], kind)
            case Listed(kind):
                self.end(kind)
            case Told(thing):
                if isinstance(thing, Pod):
                    return self.tell_pod(thing)
                self.tell_node(thing)
            case Gone(kind, name, _) if kind == NODES:
                self.seen.pop(name, None)
            case Deaf(kind):
                self.heard[kind].hears = False
            case Hears(kind):
                self.heard[kind].hears = True
            case Past():
                self.is_rested = True
            case Answer(ticket, what):
                return self.answer(ticket, what)
            case WasRead(ask, what, node):
                self.was_read(ask, what, node)
            case Aside(_, uid):
                self.aside.add(uid)
            case Offered(_, uid):
                self.aside.discard(uid)
            case Cycle(which, where):
                return self.cycle(which, where)
        return []

    @property
    def opens(self) -> list[str]:
        return [uid for uid, it in self.known.items() if it.ticket]

    @property
    def pods(self) -> dict[str, str]:
        return {self.names[uid]: uid for uid in self.known}

    @property
    def used(self) -> dict[str, Amounts]:
        return {node: self.counts(node) for node in {it.node for it in self.known.values() if it.node}}

    def is_shut(self) -> bool:
        return not (self.heard[PODS].is_heard and self.heard[NODES].is_heard and not self.left_out)

    def counts(self, node: str) -> Amounts:
        return total(it.asks for it in self.known.values() if it.node == node)

    # Lists.

    def begin(self, heard: Heard, kind: str) -> None:
        heard.lists += 1
        heard.listing, heard.fresh = True, kind == NODES or self.is_rested

    def end(self, kind: str) -> None:
        heard = self.heard[kind]
        if not heard.listing:
            return
        if kind == PODS:
            self.owed(self, Ends())
            self.known = {uid: it for uid, it in self.known.items() if it.listed == heard.lists}
            if heard.fresh and self.left_out_in != heard.lists:
                self.left_out = False
        else:
            self.seen = {name: it for name, it in self.seen.items() if it.listed == heard.lists}
        heard.listing, heard.listed, heard.hears = False, heard.listed or heard.fresh, True

    # Objects.

    def tell_node(self, node: Node) -> None:
        lists, seen = self.heard[NODES].lists, self.seen.get(node.name)
        if seen and node.version <= seen.version:
            seen.listed = lists
        elif node.room is None:
            # (no row says it: it is told to be gone)
            self.seen.pop(node.name, None)
        else:
            self.owed(self, Has(node.name, node.room))
            self.seen[node.name] = Seen(node.version, lists, node.room)

    def tell_pod(self, pod: Pod) -> list[Output]:
        self.names[pod.uid] = pod.name
        if pod.node:
            return self.stands(pod.uid, pod.version, self.heard[PODS].lists, pod.node, pod.counts)
        if pod.asks and pod.is_ours:
            return self.waits(pod.uid, pod.version, pod.asks)
        self.withheld(pod.uid, pod.version)
        return []

    def is_old(self, uid: str, version: int) -> bool:
        """It names the pod all the same."""
        known = self.known.get(uid)
        if known and version <= known.version:
            known.listed = self.heard[PODS].lists
            return True
        return False

    def stands(self, uid: str, version: int, lists: int, node: str, takes: Amounts) -> list[Output]:
        self.owed(self, Stands(uid, node, takes))
        if self.is_old(uid, version):
            return []
        return self.stands_new(uid, version, lists, node, takes)

    def stands_new(self, uid: str, version: int, lists: int, node: str, takes: Amounts) -> list[Output]:
        if uid not in self.known and len(self.known) >= self.most:
            self.left_out, self.left_out_in = True, self.heard[PODS].lists
            return [Full(self.names[uid])]
        self.known[uid] = Known(version, lists, takes, node)
        return []

    def waits(self, uid: str, version: int, asks: Amounts) -> list[Output]:
        if self.is_old(uid, version):
            return []
        lists, known = self.heard[PODS].lists, self.known.get(uid)
        if not known:
            if len(self.known) >= self.most:
                return [Full(self.names[uid])]
            self.known[uid] = Known(version, lists, asks)
        else:
            known.version, known.listed, known.withheld = version, lists, False
            if not known.node:
                known.asks = asks
        return []

    def withheld(self, uid: str, version: int) -> None:
        known = self.known.get(uid)
        if not known or self.is_old(uid, version):
            return
        if known.node:
            known.version, known.listed, known.withheld = version, self.heard[PODS].lists, bool(known.ticket)
        else:
            del self.known[uid]

    def gone(self, uid: str) -> None:
        self.owed(self, Off(uid))
        self.known.pop(uid, None)

    # Binds.

    def cycle(self, which: int, where: int) -> list[Output]:
        if self.is_shut():
            return [Shut()]
        waiting = sorted(uid for uid, it in self.known.items() if not it.node and uid not in self.aside)
        if not waiting:
            return [Idle()]
        uid = waiting[which % len(waiting)]
        known = self.known[uid]
        nodes = sorted(name for name, it in self.seen.items() if fits(known.asks, self.counts(name), it.room))
        if not nodes:
            return [Fails(self.names[uid], uid)]
        self.tickets += 1
        known.node, known.ticket, known.asking = nodes[where % len(nodes)], self.tickets, SENT
        return [Bind(self.tickets, self.names[uid], uid, known.version, known.node, known.asks)]

    def answer(self, ticket: int, what: str) -> list[Output]:
        for uid, it in self.known.items():
            if it.ticket == ticket and what != "lost":
                if what == "created":
                    it.asking = CREATED
                elif it.asking == SENT:
                    it.asking = IN_DOUBT
                if it.asking == IN_DOUBT:
                    self.asks += 1
                    self.reads[self.asks] = uid, ticket
                    return [Read(self.asks, ticket, self.names[uid], uid)]
        return []

    def was_read(self, ask: int, what: str, node: str) -> None:
        uid, ticket = self.reads.pop(ask)
        known = self.known.get(uid)
        if not known or known.ticket != ticket or known.asking != IN_DOUBT:
            return
        if what == "waits":
            self.owed(self, Off(uid))
            known.node, known.ticket = "", 0
            if known.withheld:
                del self.known[uid]
        elif what == "gone":
            self.gone(uid)
        else:
            # (the version of what was read isn't told: it is newer than what is known)
            self.owed(self, Stands(uid, node, known.asks))
            self.stands_new(uid, known.version, known.listed, node, known.asks)
