# SPDX-License-Identifier: Apache-2.0
"""The slow machine: what is known of pods, nodes and binds, one function a line. It knows no clock, and chooses a place by the line's
numbers: what is tried is what it counts, and when it binds."""
from __future__ import annotations

import dataclasses

from lines import (KINDS, NODES, NOTHING, PODS, Amounts, Answer, Aside, Bind, Cycle, Deaf, Fails, Full, Gone, Hears, Idle, Line, Listed, Lists, Node,
                   Offered, Output, Past, Pod, Read, Shut, Thing, Tick, Told, WasRead, fits, minus, plus)


@dataclasses.dataclass
class Open:
    """A bind that may be done, or may have been, and of which it isn't known. `is_past` says that it won't be done from now on."""

    bind: Bind
    is_past: bool = False


class Machine:
    """All by name, since that belongs to one object at a time; of a pod the uid says which. A pod that waits has an open bind, or is in
    `queue`, or is none that can be tried. `most` pods can be known, and `fences` says that the server tests the versions of binds."""

    def __init__(self, most: int = 100, fences: bool = False) -> None:
        self.most, self.fences = most, fences
        self.pods: dict[str, Pod] = {}
        self.nodes: dict[str, Node] = {}
        self.used: dict[str, Amounts] = {}
        self.queue: set[str] = set()
        self.aside: set[str] = set()
        self.opens: dict[int, Open] = {}
        # the reads that have no answer yet: of which bind, and whether it was past when they were
        # asked for
        self.reads: dict[int, tuple[int, bool]] = {}
        # of a kind whose list is being told the names that it has told so far
        self.named: dict[str, set[str]] = {}
        self.heard: set[str] = set()
        self.ever: set[str] = set()
        self.is_past = self.is_clear = self.lists_past = False
        # whether a pod on a node isn't known, for want of room; and whether that came since the
        # list began
        self.is_short = self.lists_short = False
        self.tickets = self.asks = 0

    def take(self, line: Line) -> list[Output]:
        """The answer to one line."""
        match line:
            case Told():
                return self.told(line)
            case Gone() | Lists() | Listed() | Deaf() | Hears():
                self.hear(line)
            case Answer():
                return self.answer(line)
            case WasRead():
                self.was_read(line)
            case Past():
                self.is_past = True
            case Aside():
                self.set_aside(line)
            case Offered():
                self.offered(line)
            case Tick():
                self.tick(line)
            case Cycle():
                return self.cycle(line)
        return []

    def hear(self, line: Gone | Lists | Listed | Deaf | Hears) -> None:
        match line:
            case Gone():
                self.gone(line)
            case Lists():
                self.lists(line)
            case Listed():
                self.listed(line)
            case Deaf():
                self.heard.discard(line.kind)
            case Hears():
                self.hears(line)

    # Objects.

    def told(self, line: Told) -> list[Output]:
        thing = line.thing
        kind = PODS if isinstance(thing, Pod) else NODES
        if kind in self.named:
            self.named[kind].add(thing.name)
        if isinstance(thing, Pod) and thing.name not in self.pods and len(self.pods) >= self.most:
            self.is_short = self.is_short or thing.node is not None
            self.lists_short = self.lists_short or thing.node is not None
            return [Full(thing.name)]
        if not self.is_old(kind, thing.name, thing.version):
            self.told_new(thing)
        return []

    def told_new(self, thing: Thing) -> None:
        if isinstance(thing, Node):
            self.nodes[thing.name] = thing
            return
        known = self.pods.get(thing.name)
        if known and known.uid != thing.uid:
            self.ends(known)
        elif known and known.node and not thing.node:
            # said before its bind, told after it: nothing takes its node from a pod
            return
        self.becomes(thing)

    def is_old(self, kind: str, name: str, version: int) -> bool:
        known = self.pods.get(name) if kind == PODS else self.nodes.get(name)
        return known is not None and version <= known.version

    def becomes(self, pod: Pod) -> None:
        """What is known of this uid is this from now on."""
        known = self.pods.get(pod.name)
        if known and known.node:
            self.uncount(known.node, known.counts)
        self.pods[pod.name] = pod
        if pod.node:
            self.settle_all(pod)
            self.count(pod.node, pod.counts)
        self.requeue(pod)

    def ends(self, pod: Pod) -> None:
        self.settle_all(pod)
        if pod.node:
            self.uncount(pod.node, pod.counts)
        del self.pods[pod.name]
        self.queue.discard(pod.name)
        self.aside.discard(pod.name)

    def gone(self, line: Gone) -> None:
        if line.kind in self.named:
            self.named[line.kind].discard(line.name)
        if not self.is_old(line.kind, line.name, line.version):
            self.gone_by_name(line.kind, line.name)

    def gone_by_name(self, kind: str, name: str) -> None:
        if kind == NODES:
            # (what stands there counts on)
            self.nodes.pop(name, None)
        elif name in self.pods:
            self.ends(self.pods[name])

    # Lists, and what is heard.

    def lists(self, line: Lists) -> None:
        self.named[line.kind] = set()
        self.heard.discard(line.kind)
        if line.kind == PODS:
            self.lists_past, self.lists_short = self.is_past, False

    def listed(self, line: Listed) -> None:
        named = self.named.pop(line.kind, None)
        if named is None:
            return
        known = [*self.pods] if line.kind == PODS else [*self.nodes]
        for name in known:
            if name not in named:
                self.gone_by_name(line.kind, name)
        self.heard.add(line.kind)
        self.ever.add(line.kind)
        if line.kind == PODS:
            self.is_clear = self.is_clear or self.lists_past
            self.is_short = self.lists_short

    def hears(self, line: Hears) -> None:
        """(a list that was begun has to end first, or another)"""
        if line.kind in self.ever and line.kind not in self.named:
            self.heard.add(line.kind)

    # Binds.

    def answer(self, line: Answer) -> list[Output]:
        it = self.opens.get(line.ticket)
        if not it:
            return []
        if line.what == "created":
            self.stands(it.bind, it.bind.node)
            return []
        if line.what == "lost":
            return [] if it.is_past else [self.ask(it)]
        if it.is_past:
            return []
        it.is_past = True
        return [self.ask(it)]

    def ask(self, it: Open) -> Read:
        fences = self.fences and not it.is_past
        self.asks += 1
        self.reads[self.asks] = it.bind.ticket, it.is_past or fences
        return Read(self.asks, it.bind.ticket, it.bind.name, it.bind.uid, fences)

    def was_read(self, line: WasRead) -> None:
        ticket, was_past = self.reads.pop(line.ask, (0, False))
        it = self.opens.get(ticket)
        if not it:
            return
        if line.what == "on":
            self.stands(it.bind, line.node)
        elif line.what == "gone":
            # the watch will say so; until then nothing more is asked of it
            self.settle(it)
            self.aside.add(it.bind.name)
        elif was_past:
            self.settle(it)
            self.requeue(self.pods[it.bind.name])

    def stands(self, bind: Bind, node: str) -> None:
        """An answer says so, of which no version is known: whatever is told anew is newer."""
        self.becomes(self.pods[bind.name]._replace(node=node, asks=bind.asks))

    def settle(self, it: Open) -> None:
        del self.opens[it.bind.ticket]
        self.uncount(it.bind.node, it.bind.asks)

    def settle_all(self, pod: Pod) -> None:
        for it in self.open_of(pod.name):
            self.settle(it)

    def open_of(self, name: str) -> list[Open]:
        return [it for it in self.opens.values() if it.bind.name == name]

    # What waits.

    def set_aside(self, line: Aside) -> None:
        pod = self.pods.get(line.name)
        if pod and pod.uid == line.uid:
            self.aside.add(pod.name)
            self.requeue(pod)

    def offered(self, line: Offered) -> None:
        pod = self.pods.get(line.name)
        if pod and pod.uid == line.uid:
            self.aside.discard(pod.name)
            self.requeue(pod)

    def requeue(self, pod: Pod) -> None:
        """Whether it is to be tried. Of a pod with an open bind nothing is told to the desk until that is settled."""
        waits = pod.is_ours and not pod.node and pod.asks is not None and pod.name not in self.aside and not self.open_of(pod.name)
        (self.queue.add if waits else self.queue.discard)(pod.name)

    def is_shut(self) -> bool:
        return not self.is_clear or self.is_short or any(it not in self.heard for it in KINDS)

    def cycle(self, line: Cycle) -> list[Output]:
        if self.is_shut():
            return [Shut()]
        pods = sorted(it for it in self.pods.values() if it.name in self.queue)
        if not pods:
            return [Idle()]
        pod = pods[line.which % len(pods)]
        nodes = sorted(it.name for it in self.nodes.values() if self.has_room(it, pod))
        if not nodes:
            return [Fails(pod.name, pod.uid)]
        return [self.bind(pod, nodes[line.where % len(nodes)])]

    def has_room(self, node: Node, pod: Pod) -> bool:
        return node.room is not None and pod.asks is not None and fits(pod.asks, self.used.get(node.name, NOTHING), node.room)

    def bind(self, pod: Pod, node: str) -> Bind:
        assert pod.asks is not None
        self.tickets += 1
        bind = Bind(self.tickets, pod.name, pod.uid, pod.version, node, pod.asks)
        self.opens[bind.ticket] = Open(bind)
        self.count(node, pod.asks)
        self.queue.discard(pod.name)
        return bind

    # What counts on a node.

    def count(self, node: str, more: Amounts) -> None:
        self.used[node] = plus(self.used.get(node, NOTHING), more)

    def uncount(self, node: str, less: Amounts) -> None:
        self.used[node] = minus(self.used[node], less)

    def tick(self, _: Tick) -> None:
        """(the desk's alone: when a pod that failed may be tried again)"""
