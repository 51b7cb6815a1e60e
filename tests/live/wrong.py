# SPDX-License-Identifier: Apache-2.0
"""Machines that are wrong in one thing each. Every one has to be found."""
from __future__ import annotations

from lines import (NODES, NOTHING, PODS, Answer, Aside, Bind, Gone, Hears, Listed, Lists, Node, Offered, Output, Pod, Thing, Tick, Told, WasRead, fits,
                   minus)
from machine import Machine


class ListKeeps(Machine):
    """A pod that a list doesn't name stays."""

    def gone_by_name(self, kind: str, name: str) -> None:
        if not (kind == PODS and self.is_ending):
            super().gone_by_name(kind, name)

    is_ending = False

    def listed(self, line: Listed) -> None:
        self.is_ending = True
        super().listed(line)
        self.is_ending = False


class LateNames(Machine):
    """What a list names that hasn't changed is gone with its end."""

    def told(self, line: Told) -> list[Output]:
        kind = PODS if isinstance(line.thing, Pod) else NODES
        return [] if self.is_old(kind, line.thing.name, line.thing.version) else super().told(line)


class CutNames(Machine):
    """What a list that was cut has named isn't gone with the end of the next."""

    def lists(self, line: Lists) -> None:
        named = self.named.get(line.kind, set())
        super().lists(line)
        self.named[line.kind] |= named


class LostForgotten(Machine):
    """A bind without an answer counts no more."""

    def answer(self, line: Answer) -> list[Output]:
        it = self.opens.get(line.ticket)
        if it and line.what == "lost":
            self.settle(it)
            self.requeue(self.pods[it.bind.name])
            return []
        return super().answer(line)


class OverForgotten(Machine):
    """When the server's time is over the bind counts no more, and nothing is read."""

    def answer(self, line: Answer) -> list[Output]:
        it = self.opens.get(line.ticket)
        if it and line.what == "over":
            self.settle(it)
            self.requeue(self.pods[it.bind.name])
            return []
        return super().answer(line)


class RefusedForgotten(Machine):
    """A bind that was refused counts no more, and nothing is read."""

    def answer(self, line: Answer) -> list[Output]:
        it = self.opens.get(line.ticket)
        if it and line.what == "refused":
            self.settle(it)
            self.requeue(self.pods[it.bind.name])
            return []
        return super().answer(line)


class RefusedByWatch(Machine):
    """A bind that was refused counts no more once a watch says that the pod waits, which may be old."""

    def told_new(self, thing: Thing) -> None:
        super().told_new(thing)
        if isinstance(thing, Pod) and not thing.node:
            for it in self.open_of(thing.name):
                if it.is_past:
                    self.settle(it)
            self.requeue(self.pods[thing.name])


class EarlyRead(Machine):
    """A read that was asked for before the server's time was over settles the bind when it is answered after."""

    def was_read(self, line: WasRead) -> None:
        ticket, was_past = self.reads.get(line.ask, (0, False))
        it = self.opens.get(ticket)
        self.reads[line.ask] = ticket, was_past or bool(it and it.is_past)
        super().was_read(line)


class AnyRead(Machine):
    """Any read settles the bind."""

    def was_read(self, line: WasRead) -> None:
        self.reads[line.ask] = self.reads.get(line.ask, (0, False))[0], True
        super().was_read(line)


class BindsDeaf(Machine):
    """A kind of which a list was heard is heard."""

    def is_shut(self) -> bool:
        self.heard = {*self.ever}
        return super().is_shut()


class HearsListing(Machine):
    """A watch is heard though the list before it hasn't ended."""

    def hears(self, line: Hears) -> None:
        self.heard.add(line.kind)


class OldNode(Machine):
    """A node that is made anew under its name has the room that the old one had."""

    def told_new(self, thing: Thing) -> None:
        known = self.nodes.get(thing.name)
        if isinstance(thing, Node) and known and known.uid != thing.uid:
            thing = thing._replace(room=known.room)
        super().told_new(thing)


class OpenUncounted(Machine):
    """An open bind isn't counted."""

    def has_room(self, node: Node, pod: Pod) -> bool:
        used = self.used.get(node.name, NOTHING)
        for it in self.opens.values():
            if it.bind.node == node.name:
                used = minus(used, it.bind.asks)
        return bool(node.room and pod.asks and fits(pod.asks, used, node.room))


class Namesake(Machine):
    """A pod whose name another has isn't gone."""

    def told_new(self, thing: Thing) -> None:
        known = self.pods.get(thing.name)
        if isinstance(thing, Pod) and known and known.uid != thing.uid:
            self.becomes_beside(thing)
        else:
            super().told_new(thing)

    def becomes_beside(self, pod: Pod) -> None:
        self.pods[pod.name] = pod
        if pod.node:
            self.count(pod.node, pod.counts)
        self.requeue(pod)


class UnreadNothing(Machine):
    """A pod on a node whose amounts can't be read counts nothing."""

    def becomes(self, pod: Pod) -> None:
        super().becomes(pod._replace(asks=pod.asks or NOTHING) if pod.node else pod)


class LateWaits(Machine):
    """What a watch says late takes the node from a pod that an answer has put there."""

    def told_new(self, thing: Thing) -> None:
        known = self.pods.get(thing.name)
        if isinstance(thing, Pod) and known and known.uid == thing.uid:
            self.becomes(thing)
        else:
            super().told_new(thing)


class NoVersions(Machine):
    """What was told before is told anew."""

    def is_old(self, kind: str, name: str, version: int) -> bool:
        return False


class DoneExpires(Machine):
    """A bind that was done, and that nothing tells of for 30 seconds, counts no more."""

    def __init__(self, most: int = 100, fences: bool = False) -> None:
        super().__init__(most, fences)
        self.now = 0
        self.done: dict[int, int] = {}

    def answer(self, line: Answer) -> list[Output]:
        if line.what == "created" and line.ticket in self.opens:
            self.done[line.ticket] = self.now
            return []
        return super().answer(line)

    def tick(self, line: Tick) -> None:
        self.now = line.at
        for ticket, when in self.done.items():
            it = self.opens.get(ticket)
            if it and self.now - when >= 30:
                self.settle(it)
                self.requeue(self.pods[it.bind.name])


class AtOnce(Machine):
    """An instance binds as soon as it has heard all."""

    def listed(self, line: Listed) -> None:
        super().listed(line)
        self.is_clear = self.is_clear or line.kind == PODS


class PastAlone(Machine):
    """An instance binds once the binds before it are over, by a list that began before."""

    def is_shut(self) -> bool:
        self.is_clear = self.is_clear or self.is_past and PODS in self.ever
        return super().is_shut()


class PastAtEnd(Machine):
    """An instance binds by a list that has ended since, and began before."""

    def listed(self, line: Listed) -> None:
        self.lists_past = self.is_past
        super().listed(line)


class AsideFrees(Machine):
    """A pod that is taken aside under bind counts no more."""

    def set_aside(self, line: Aside) -> None:
        for it in self.open_of(line.name):
            self.settle(it)
        super().set_aside(line)


class ChangeFrees(Machine):
    """A pod that changes under bind is told anew, and its bind counts no more."""

    def becomes(self, pod: Pod) -> None:
        for it in self.open_of(pod.name):
            self.settle(it)
        super().becomes(pod)


class AsideForgotten(Machine):
    """A pod that is offered again isn't tried."""

    def offered(self, line: Offered) -> None:
        self.aside.discard(line.name)


class SettledForgotten(Machine):
    """A pod whose bind wasn't done isn't tried again."""

    def was_read(self, line: WasRead) -> None:
        ticket = self.reads.get(line.ask, (0, False))[0]
        it = self.opens.get(ticket)
        super().was_read(line)
        if it and ticket not in self.opens:
            self.queue.discard(it.bind.name)


class GoneByRead(Machine):
    """A pod that a read doesn't find is gone, and so can come back by what is told late."""

    def was_read(self, line: WasRead) -> None:
        it = self.opens.get(self.reads.get(line.ask, (0, False))[0])
        super().was_read(line)
        if it and line.what == "gone" and it.bind.name in self.pods:
            self.ends(self.pods[it.bind.name])


class GoneCounts(Machine):
    """The bind of a pod that is gone counts on."""

    def settle_all(self, pod: Pod) -> None:
        if pod.name in self.pods and self.pods[pod.name].uid == pod.uid and not pod.node:
            return
        super().settle_all(pod)


class NodeFrees(Machine):
    """What stands on a node that is gone counts no more."""

    def gone(self, line: Gone) -> None:
        super().gone(line)
        if line.kind == NODES and line.name not in self.nodes:
            self.used.pop(line.name, None)

    def uncount(self, node: str, less: tuple[int, int, int]) -> None:
        if node in self.used:
            super().uncount(node, less)


class Elsewhere(Machine):
    """A read that finds the pod on a node takes that for the bind's."""

    def stands(self, bind: Bind, node: str) -> None:
        super().stands(bind, bind.node)


class Twice(Machine):
    """A pod under bind is tried again."""

    def bind(self, pod: Pod, node: str) -> Bind:
        it = super().bind(pod, node)
        self.queue.add(pod.name)
        return it


class FencesAlways(Machine):
    """A server that doesn't test versions is asked to fence."""

    def __init__(self, most: int = 100, fences: bool = False) -> None:
        super().__init__(most, True)


class FullForgotten(Machine):
    """A pod on a node that there is no room to know is none."""

    def is_shut(self) -> bool:
        self.is_short = False
        return super().is_shut()


class ShortForgotten(Machine):
    """A list's end makes room, though it had pods that there was no room to know."""

    def listed(self, line: Listed) -> None:
        self.lists_short = False
        super().listed(line)


WRONG = tuple(it for it in globals().values() if isinstance(it, type) and issubclass(it, Machine) and it is not Machine)
