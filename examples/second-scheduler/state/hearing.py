# SPDX-License-Identifier: Apache-2.0
"""What is heard of nodes and pods, in the threads of their watches: handed on in its order, with the line that `wsched live` is told of it."""
from __future__ import annotations

import threading
from typing import Iterable, Sequence

from api.pages import Item, Json
from api.watch import Ears
from reporting.metrics import Metrics
from state.affinity import NodeLabels
from state.claims import Claims
from state.heard import PodHeard, Reader, item_line, node_heard
from state.newest import Newest
from state.share import Share


class Hearing(Ears):
    """What both kinds have in common: the words of a list and of a watch, each list and each break, and up to which version a watch has told of all."""

    def __init__(self, metrics: Metrics, newest: Newest) -> None:
        self.metrics, self.newest, self.inbox = metrics, newest, newest.inbox
        self.came = 0
        # set by the main loop, where all is to be listed anew
        self.again = threading.Event()
        # those that this list has named so far
        self.named = set[str]()

    def say(self, word: str, what: object = None) -> None:
        self.inbox.put((self.kind, word, what))

    def begins(self) -> None:
        self.again.clear()
        self.named = set()
        self.say("list")

    def ends(self) -> None:
        self.metrics.lists.labels(self.kind).inc()
        named, self.named = self.named, set()
        self.say("listed", named)

    def came_to(self, version: str) -> None:
        self.came = int(version) if version.isdecimal() else 0

    def opened(self) -> None:
        self.say("hears")

    def shut(self) -> None:
        self.say("deaf")

    def failed(self) -> None:
        self.metrics.breaks.labels(self.kind).inc()

    def wants_list(self) -> bool:
        return self.again.is_set()


class NodeHearing(Hearing):
    """Nodes, by their names."""

    kind = "node"

    def __init__(self, metrics: Metrics, newest: Newest, share: Share, labels: NodeLabels) -> None:
        super().__init__(metrics, newest)
        self.share, self.labels = share, labels

    def items(self, items: Iterable[Item]) -> None:
        for it in items:
            self.named.add(it.thing["metadata"]["name"])
            self.hear("ADDED", it.thing, item_line("ADDED", "Node", it), self.came)

    def ends(self) -> None:
        self.newest.listed_nodes(self.named)
        super().ends()

    def event(self, event: str, thing: Json, line: bytes) -> None:
        self.hear(event, thing, line + b"\n", 0)

    def hear(self, event: str, node: Json, line: bytes, came: int) -> None:
        if self.share.has_node(node["metadata"]["name"]):
            self.newest.hear_node(node_heard(event, node, line, self.labels, came))


class PodHearing(Hearing):
    """Pods, by their uids. One whose claims or volumes change is heard anew."""

    kind = "pod"

    def __init__(self, metrics: Metrics, newest: Newest, reader: Reader, claims: Claims) -> None:
        super().__init__(metrics, newest)
        self.reader, self.claims = reader, claims
        claims.again = self.hear_again

    def begins(self) -> None:
        super().begins()
        self.claims.wait()

    def items(self, items: Iterable[Item]) -> None:
        with self.claims.lock:
            for it in items:
                heard = self.hear("ADDED", it.thing, item_line("ADDED", "Pod", it), self.came)
                if heard.waits:
                    self.named.add(heard.uid)

    def ends(self) -> None:
        self.newest.listed_pods(self.named)
        with self.claims.lock:
            self.claims.listed(self.named)
        super().ends()

    def event(self, event: str, thing: Json, line: bytes) -> None:
        with self.claims.lock:
            self.hear(event, thing, line + b"\n", 0)

    def hear_again(self, pods: Sequence[Json]) -> None:
        for it in pods:
            self.hear("MODIFIED", it, item_line("MODIFIED", "Pod", Item(it, "")), 0)

    def hear(self, event: str, pod: Json, line: bytes, came: int) -> PodHeard:
        heard = self.reader.pod(event, pod, line, came)
        self.claims.keep(pod, heard.waits is not None)
        self.newest.hear_pod(heard)
        return heard
