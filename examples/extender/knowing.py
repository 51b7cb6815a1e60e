# SPDX-License-Identifier: Apache-2.0
"""What is known of nodes, and of the pods on them, by a list and a watch of each kind; and how old
that is."""
from __future__ import annotations

import logging
import time
from typing import Sequence

from api.calls import Calls
from api.watch import PHASES, Things, Watched
from state.affinity import NodeLabels
from state.heard import ENDED
from tools.seeing import Reader, SeenNode, row_of
from tools.translating import Json

from cores import Cores
from counting import Counting
from questions import WHO, Rows

LOG = logging.getLogger("second-scheduler")
# Pods without a node take nothing of any; one that ends is told of as gone.
ON_NODES = f"spec.nodeName!=,{PHASES}"


class NodeEars(Things):
    """Nodes, by their names. `unsaid` are those that no row says as they are, and why."""

    kind = "node"

    def __init__(
        self, cores: Cores, reader: Reader, labels: NodeLabels, counting: Counting
    ) -> None:
        super().__init__()
        self.cores, self.reader, self.labels, self.counting = cores, reader, labels, counting
        self.unsaid: dict[str, str] = {}
        self.is_listed = False

    def key(self, thing: Json) -> str:
        return str(thing["metadata"]["name"])

    def hear(self, event: str, things: Sequence[Json]) -> None:
        seen = [] if event == "DELETED" else self.reader.nodes(things, self.labels)
        with self.cores.lock:
            for name in map(self.key, things if event == "DELETED" else ()):
                self.forget(name)
            for it in seen:
                self.take(it)
            self.cores.settle()

    def take(self, seen: SeenNode) -> None:
        row = row_of(seen, self.labels)
        if row is not None:
            self.unsaid.pop(seen.name, None)
            self.cores.set_node(seen.name, row)
            return
        why = ", ".join(seen.left_out) or "no row says it"
        if self.unsaid.get(seen.name) != why:
            LOG.warning("left out: node %s: %s", seen.name, why)
        self.forget(seen.name)
        self.unsaid[seen.name] = why

    def forget(self, name: str) -> None:
        self.unsaid.pop(name, None)
        self.cores.drop_node(name)

    def listed(self, keys: set[str]) -> None:
        self.counting.lists.labels(self.kind).inc()
        with self.cores.lock:
            for name in [it for it in (*self.cores.rows, *self.unsaid) if it not in keys]:
                self.forget(name)
            self.cores.settle()
        self.is_listed = True

    def failed(self) -> None:
        self.counting.breaks.labels(self.kind).inc()


def is_on_a_node(pod: Json) -> bool:
    """(an API server that was asked for these alone tells of one that has ended as deleted)"""
    phase = (pod.get("status") or {}).get("phase")
    return bool(pod["spec"].get("nodeName")) and phase not in ENDED


class PodEars(Things):
    """Pods that have a node, by their uids."""

    kind = "pod"

    def __init__(self, cores: Cores, rows: Rows, counting: Counting) -> None:
        super().__init__()
        self.cores, self.rows, self.counting, self.is_listed = cores, rows, counting, False

    def key(self, thing: Json) -> str:
        return str(thing["metadata"]["uid"])

    def hear(self, event: str, things: Sequence[Json]) -> None:
        there = [] if event == "DELETED" else [*filter(is_on_a_node, things)]
        sizes = {
            self.key(it): (it["spec"]["nodeName"], size)
            for it, size in zip(there, self.rows.sizes(there))
        }
        with self.cores.lock:
            for uid in map(self.key, things):
                if uid in sizes:
                    self.cores.set_pod(uid, *sizes[uid])
                else:
                    self.cores.drop_pod(uid)
            self.cores.settle()

    def listed(self, keys: set[str]) -> None:
        self.counting.lists.labels(self.kind).inc()
        with self.cores.lock:
            for uid in [it for it in self.cores.at if it not in keys]:
                self.cores.drop_pod(uid)
            self.cores.settle()
        self.is_listed = True

    def failed(self) -> None:
        self.counting.breaks.labels(self.kind).inc()


class Knowing:
    """Both, once they are started."""

    def __init__(
        self, calls: Calls, cores: Cores, rows: Rows, labels: NodeLabels, counting: Counting
    ) -> None:
        reader = Reader(rows.program, WHO, rows.named)
        self.nodes = NodeEars(cores, reader, labels, counting)
        self.pods = PodEars(cores, rows, counting)
        self.watches = [
            Watched(calls, "/api/v1/nodes", self.nodes),
            Watched(calls, "/api/v1/pods", self.pods, fieldSelector=ON_NODES),
        ]
        counting.look = self.look
        self.cores, self.counting = cores, counting

    def start(self) -> None:
        for it in self.watches:
            it.start()

    def is_listed(self) -> bool:
        return self.nodes.is_listed and self.pods.is_listed

    def age(self) -> float:
        """For how many seconds nothing has been heard of a kind, 0 while both are."""
        now = time.monotonic()
        return max(it.shut_for(now) for it in self.watches)

    def silence(self, most: float) -> str:
        """Of which kinds nothing has been heard for more than so many seconds, and for how long;
        empty where there is none."""
        now = time.monotonic()
        kinds = [it.ears.kind for it in self.watches if it.shut_for(now) > most]
        what = ", of any ".join(kinds)
        return f"nothing has been heard of any {what} for {self.age():.0f} s" if kinds else ""

    def look(self) -> None:
        """Before what is counted is told."""
        it, now = self.counting, time.monotonic()
        for watch in self.watches:
            it.shut.labels(watch.ears.kind).set(watch.shut_for(now))
        with self.cores.lock:
            it.nodes.set(len(self.cores.rows))
            it.places.labels("bound").set(len(self.cores.at))
            it.left_out.labels("node").set(len(self.nodes.unsaid))
            it.refused.set(self.cores.refused)
            it.core_seconds.set(self.cores.seconds())
