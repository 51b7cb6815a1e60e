# SPDX-License-Identifier: Apache-2.0
"""By which rules a pod that found no node was rejected, on how many nodes by each, and what the rule says of that: what its event says.

A cycle counts these nodes and names no rule. An explanation has a line for each node, a thousand for a pod, so wsched is asked for it only of
those pods whose event is due, and for a small part of the time.
"""
from __future__ import annotations

import collections
import functools
import time
from typing import Callable

from core.answers import Filtered, Judged, Passes
from core.verdicts import Reasons, said_of_no_node
from reporting.telling import Telling

# How many lines of nodes are asked for at once, and how long they may take, in seconds, as reckoned by
# what decisions take.
LINES, MEANT = 20_000, 0.2
# How much of the main loop's time may go into it.
SHARE = 0.1


class Explaining:
    """`explain` asks about a pod; `reasons` is what the rules say of themselves, and `whose` says which nodes were looked at, where these aren't all."""

    def __init__(self, explain: Callable[[str, Callable[[Judged], None]], None], telling: Telling, whose: str, reasons: Reasons) -> None:
        self.explain, self.telling, self.whose, self.reasons = explain, telling, whose, reasons
        self.asked, self.began, self.next = 0, 0.0, 0.0

    def tick(self, nodes: int, cost: float) -> None:
        """Has those explained whose event is due. (A decision costs so many seconds.)"""
        self.began = time.monotonic()
        if self.asked or self.began < self.next:
            return
        for uid in self.telling.unexplained(max(1, min(LINES // max(1, nodes), int(MEANT / max(cost, 1e-6))))):
            self.asked += 1
            self.explain(uid, functools.partial(self.explained, uid))

    def explained(self, uid: str, said: Judged) -> None:
        self.asked -= 1
        now = time.monotonic()
        self.next = now + (now - self.began) / SHARE
        # (one that would find a node now is told by what was decided: it is tried again)
        if said.nodes is None or any(isinstance(it, Passes) for it in said.nodes.values()):
            self.telling.explained(uid, None)
            return
        counts = collections.Counter(it.by for it in said.nodes.values() if isinstance(it, Filtered))
        self.telling.explained(uid, said_of_no_node(counts, said.nodes, self.whose, self.reasons))
