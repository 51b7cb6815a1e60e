# SPDX-License-Identifier: Apache-2.0
"""The nodes that are used, as far as the client has to know them: what wsched is told of each, and which it doesn't use, and why."""
from __future__ import annotations

import functools
import logging

from core.answers import Said, Word
from core.live import Core
from reporting.metrics import Metrics
from reporting.telling import Telling, about_node
from state.affinity import NodeLabels
from state.heard import NodeHeard, node_gone, node_line
from state.share import ALONE, Share
from state.waiting import Waiting

LOG = logging.getLogger("second-scheduler")


class Nodes:
    """Desk has the pods that wait."""

    def __init__(self, core: Core, telling: Telling, metrics: Metrics, labels: NodeLabels, share: Share = ALONE) -> None:
        self.core, self.telling, self.metrics, self.share, self.waiting = core, telling, metrics, share, Waiting(share)
        # which labels of nodes are asked for
        self.labels = labels
        self.nodes: dict[str, NodeHeard] = {}
        # nodes that no line can say, and those for which there is no room
        self.unsaid: dict[str, NodeHeard] = {}
        self.aside: dict[str, NodeHeard] = {}
        # the nodes that have changed since cycles were asked for: what is decided of them knows
        # nothing of it
        self.changed: set[str] = set()
        self.noted: dict[str, tuple[str, ...]] = {}
        # whether there may be something to decide
        self.has_work = False

    def note(self, who: str, is_told: bool, left_out: tuple[str, ...]) -> None:
        if left_out and self.noted.get(who) != left_out:
            LOG.info("left out%s %s: %s", " of" if is_told else ":", who, ", ".join(left_out))
        if left_out:
            self.noted[who] = left_out
        else:
            self.noted.pop(who, None)

    def hear_node(self, it: NodeHeard) -> None:
        if it.event == "DELETED":
            self.core.say(it.line, self.node_went)
            self.forget_node(it.name)
            return
        before = self.nodes.get(it.name)
        if before is None or before.mark != it.mark or before.uid != it.uid:
            self.changed.add(it.name)
        self.tell_node(it)

    def tell_node(self, it: NodeHeard) -> None:
        line = node_line(it, self.labels)
        if isinstance(line, str):
            self.core.say(node_gone(it.name), self.node_went)
            self.dont_use(it, self.unsaid)
            self.note(f"node {it.name}", False, (line,))
        else:
            self.core.say(line, functools.partial(self.node_answered, it))

    def node_answered(self, it: NodeHeard, said: Said) -> None:
        self.has_work = True
        if said.word is Word.FULL:
            if it.name not in self.aside:
                why = "wsched has no room for more nodes; --nodes gives each instance nodes of its own"
                LOG.warning("node %s isn't used: %s", it.name, why)
                self.metrics.refused.labels("node").inc()
                self.telling.warn(about_node(it.name, it.uid), "NotUsed", why)
            self.dont_use(it, self.aside)
        elif said.word is Word.NOTHING:
            self.dont_use(it, self.unsaid)
            self.note(f"node {it.name}", False, said.left_out)
        elif said.word is Word.TOLD or it.name in self.nodes:
            self.forget_aside(it.name)
            self.nodes[it.name] = it
            self.waiting.moves += 1
            self.note(f"node {it.name}", True, said.left_out)

    def node_went(self, _: Said) -> None:
        self.has_work = True

    def dont_use(self, it: NodeHeard, where: dict[str, NodeHeard]) -> None:
        for some in (self.nodes, self.unsaid):
            some.pop(it.name, None)
        if where is not self.aside:
            self.forget_aside(it.name)
        where[it.name] = it

    def forget_aside(self, name: str) -> None:
        self.unsaid.pop(name, None)
        if was := self.aside.pop(name, None):
            self.telling.done(was.uid, "NotUsed")

    def forget_node(self, name: str) -> None:
        """It went."""
        self.changed.add(name)
        self.forget_aside(name)
        self.nodes.pop(name, None)
        self.noted.pop(f"node {name}", None)

    def hear_nodes(self, names: set[str]) -> None:
        """After a list, of which wsched knows what it didn't name."""
        for name in [it for some in (self.nodes, self.aside, self.unsaid) for it in some if it not in names]:
            self.forget_node(name)

    def tell_labels(self) -> None:
        """Tells the nodes again that have other labels now, since others are asked for. (Its row of one version is told once: so it goes first.)"""
        for it in [*self.nodes.values(), *self.unsaid.values()]:
            if it.is_labelled:
                self.changed.add(it.name)
                self.core.say(node_gone(it.name), self.node_went)
                self.tell_node(it)
