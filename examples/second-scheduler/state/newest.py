# SPDX-License-Identifier: Apache-2.0
"""What the threads that hear of the cluster know before the main loop does: so that nothing is written on knowledge that is older than theirs.

That no node gets more than it has room for doesn't rest on this, but on the ledger (`core.live`). It saves binds that would be refused, or
would be good no more.
"""
from __future__ import annotations

import queue
import threading
from typing import Any, Callable, NamedTuple

from state.heard import NodeHeard, PodHeard
from state.pods import Pod

# A kind, an event, and what it is of.
Item = tuple[str, str, Any]
# How many bytes of objects may be heard that the main loop hasn't got to: who lists faster waits.
ROOM = 2**21


class Inbox:
    """What the main loop is to do next, in the order in which it came."""

    def __init__(self) -> None:
        self.items: queue.SimpleQueue[Item] = queue.SimpleQueue()
        self.held, self.room = 0, threading.Condition()

    def put(self, item: Item) -> None:
        self.items.put(item)

    def hand_on(self, item: Item) -> None:
        """Waits for room. The main loop makes it by `taken`."""
        size = len(item[2].line)
        with self.room:
            while self.held and self.held + size > ROOM:
                self.room.wait()
            self.held += size
        self.items.put(item)

    def taken(self, heard: NodeHeard | PodHeard) -> None:
        with self.room:
            self.held -= len(heard.line)
            self.room.notify()

    def get(self, timeout: float) -> Item:
        """Raises queue.Empty."""
        return self.items.get(timeout=timeout)

    def empty(self) -> bool:
        return self.items.empty()


class Meant(NamedTuple):
    """What a place was decided by: the pod and the node that were meant, the pod's version, and what had been heard of nodes by then."""

    pod: Pod
    version: str
    node: str
    node_uid: str
    known: int


class Newest:
    """Which pods of one's own wait for a node, which nodes there are, and of which something was heard that may leave less room. `pods` are the
    main loop's, by their uids, and `is_deaf` says whether the cluster isn't heard just now."""

    def __init__(self, inbox: Inbox, pods: dict[str, Pod], is_deaf: Callable[[], bool]) -> None:
        self.inbox, self.pods, self.is_deaf, self.lock = inbox, pods, is_deaf, threading.Lock()
        # by namespace and name the uid and the version
        self.waiting: dict[str, tuple[str, str]] = {}
        # by name the uid, and what of the node matters
        self.nodes: dict[str, tuple[str, int]] = {}
        # how often a node was said to have changed or to have a new pod, and of each node the last time
        self.count, self.last = 0, dict[str, int]()
        # the pods whose bind was sent, and has no answer
        self.sent: set[str] = set()

    # For those that hear.

    def hear_pod(self, it: PodHeard) -> None:
        if it.waits and not it.waits.is_leaving:
            self.waiting[it.key] = it.uid, it.version
        else:
            # (a name belongs to one pod at a time, so whoever had it before is gone too)
            self.waiting.pop(it.key, None)
        item = ("pod", it.event, it)
        if it.node and it.is_news and not it.is_gone and self.is_others(it):
            self.hand_on(item, it.node)
        else:
            self.inbox.hand_on(item)

    def is_others(self, it: PodHeard) -> bool:
        """Whether the pod isn't known to be bound to its node, as far as the main loop has got."""
        pod = self.pods.get(it.uid)
        return pod is None or it.node != pod.place

    def hear_node(self, it: NodeHeard) -> None:
        item = ("node", it.event, it)
        if it.event != "DELETED" and self.nodes.get(it.name) == (it.uid, it.mark):
            return self.inbox.hand_on(item)
        self.hand_on(item, it.name)
        if it.event != "DELETED":
            self.nodes[it.name] = it.uid, it.mark
        else:
            self.nodes.pop(it.name, None)
            self.last.pop(it.name, None)
        return None

    def hand_on(self, item: Item, node: str) -> None:
        """What says of a node that it has changed; and behind it that it has been heard."""
        with self.lock:
            self.count += 1
            if node in self.nodes:
                self.last[node] = self.count
            self.inbox.hand_on(item)
            self.inbox.put(("heard", "", self.count))

    def listed_pods(self, uids: set[str]) -> None:
        for key, (uid, _) in [*self.waiting.items()]:
            if uid not in uids:
                self.waiting.pop(key, None)

    def listed_nodes(self, names: set[str]) -> None:
        for name in [it for it in self.nodes if it not in names]:
            self.nodes.pop(name, None)
            self.last.pop(name, None)

    # For those that write.

    def version(self, pod: Pod) -> str:
        """The version of a pod that waits, empty where it doesn't."""
        uid, version = self.waiting.get(str(pod), ("", ""))
        return version if uid == pod.uid else ""

    def uid_of(self, node: str) -> str:
        """A node's uid, empty where there is none of the name."""
        return self.nodes.get(node, ("", 0))[0]

    def may_bind(self, meant: Meant) -> bool:
        """Whether the pod waits as it was, the node that was meant is there, and nothing was heard of it that the decision didn't know.
        Where it does, the bind is sent now."""
        if self.is_deaf() or self.waiting.get(str(meant.pod)) != (meant.pod.uid, meant.version):
            return False
        if not meant.node_uid or self.uid_of(meant.node) != meant.node_uid or self.last.get(meant.node, 0) > meant.known:
            return False
        self.sent.add(meant.pod.uid)
        return True

    def ended(self, uid: str, item: Item) -> None:
        """A pod's bind has its answer, which is handed on."""
        self.sent.discard(uid)
        self.inbox.put(item)

    def waits(self, key: str, uid: str) -> str:
        """The version of a pod that waits and has no bind under way, empty where it doesn't."""
        known, version = self.waiting.get(key, ("", ""))
        return version if known == uid and uid not in self.sent else ""
