# SPDX-License-Identifier: Apache-2.0
"""A model of the API server: objects with versions, their history by kind, and binds, each of which is done at one moment or never."""
from __future__ import annotations

import dataclasses
from typing import NamedTuple

from lines import NODES, NOTHING, PODS, Amounts, Bind, Node, Pod, Thing, total

# How long a bind may take from its post on, in seconds, if it is to be done at all.
LIMIT = 60
# The node of others, which isn't ours.
FAR = "far"


class Event(NamedTuple):
    """What happened to one object. A pod that ends is gone, as far as a watch of those that haven't ended is concerned."""

    version: int
    is_gone: bool
    thing: Thing


@dataclasses.dataclass(eq=False)
class Post:
    """A bind that was posted. `room` is what the node was thought to have when it was asked for."""

    bind: Bind
    sent: int
    room: Amounts
    became: str = "travels"
    # of an answer: whether the poster still waits for one
    is_awaited: bool = True


class Rules(NamedTuple):
    """What holds of the server and of the others that write to it."""

    # 1.21 and later
    tests_uids: bool = True
    tests_versions: bool = False
    # what a node has may become less, also when it is made anew
    rooms_fall: bool = False
    # others may put pods on our nodes at any time, and not only before the first start
    others_bind: bool = False
    # what a waiting pod asks for may become more
    asks_grow: bool = False
    # an answer `refused` may be of a second post of a bind that was done
    posts_twice: bool = True
    # a watch may begin before what was told, and a list be given up for the watch before it
    retells: bool = True
    # how many pods an instance can know
    most: int = 100


class Server:
    """All objects by name. What a pod asks for is known here, also where nobody else can read it."""

    def __init__(self, rules: Rules) -> None:
        self.rules, self.version, self.now, self.made = rules, 0, 0, 0
        self.pods: dict[str, Pod] = {}
        self.asks: dict[str, Amounts] = {}
        self.nodes: dict[str, Node] = {}
        # what each node name had at most, and by which bind's room it was filled last
        self.rooms: dict[str, Amounts] = {}
        self.filled: dict[str, tuple[int, Amounts]] = {}
        self.events: dict[str, list[Event]] = {PODS: [], NODES: []}
        # a watch from before this version isn't to be had any more
        self.compacted = 0
        self.posts: list[Post] = []
        self.posted = 0

    def next_version(self) -> int:
        self.version += 1
        return self.version

    def new_uid(self) -> str:
        self.made += 1
        return f"u{self.made}"

    # Pods.

    def set_pod(self, pod: Pod) -> None:
        pod = pod._replace(version=self.next_version())
        self.pods[pod.name] = pod
        self.events[PODS].append(Event(pod.version, False, pod))

    def make_pod(self, name: str, asks: Amounts, is_readable: bool, is_ours: bool, node: str | None = None) -> None:
        uid = self.new_uid()
        self.asks[uid] = asks
        self.set_pod(Pod(name, uid, 0, asks if is_readable else None, node, is_ours))

    def remove_pod(self, name: str) -> None:
        pod = self.pods.pop(name)
        self.events[PODS].append(Event(self.next_version(), True, pod))

    # Nodes.

    def set_node(self, name: str, room: Amounts, is_readable: bool = True, is_new: bool = False) -> None:
        known = self.nodes.get(name)
        uid = known.uid if known and not is_new else self.new_uid()
        node = Node(name, uid, self.next_version(), room if is_readable else None)
        self.nodes[name], self.rooms[name] = node, room
        self.events[NODES].append(Event(node.version, False, node))

    def remove_node(self, name: str) -> None:
        node = self.nodes.pop(name)
        self.events[NODES].append(Event(self.next_version(), True, node))

    # Binds.

    def post(self, bind: Bind, room: Amounts) -> Post:
        it = Post(bind, self.now, room)
        self.posts.append(it)
        return it

    def handle(self, it: Post) -> None:
        """The moment at which the server does it, or refuses it."""
        assert it.became == "travels"
        bind, pod = it.bind, self.pods.get(it.bind.name)
        is_good = pod and not pod.node
        if pod and self.rules.tests_uids:
            is_good = is_good and pod.uid == bind.uid
        if pod and self.rules.tests_versions:
            is_good = is_good and pod.version == bind.version
        it.became = "done" if is_good else "refused"
        if pod and is_good:
            self.set_pod(pod._replace(node=bind.node))
            when, room = self.posts.index(it), it.room
            if when >= self.filled.get(bind.node, (-1, NOTHING))[0]:
                self.filled[bind.node] = when, room

    def pass_time(self, seconds: int) -> None:
        self.now += seconds
        for it in self.posts:
            if it.became == "travels" and self.now - it.sent >= LIMIT:
                it.became = "never"

    # What is asked of it.

    def listed(self, kind: str) -> list[Thing]:
        things: list[Thing] = [*self.pods.values()] if kind == PODS else [*self.nodes.values()]
        return sorted(things, key=lambda it: it.name)

    def events_after(self, kind: str, version: int) -> list[Event]:
        return [it for it in self.events[kind] if it.version > version]

    def used(self, node: str) -> Amounts:
        return total(self.asks[it.uid] for it in self.pods.values() if it.node == node)

    def counts(self, node: str) -> Amounts:
        """What it is to be thought to have used, by whoever can't read all."""
        return total(it.counts for it in self.pods.values() if it.node == node)
