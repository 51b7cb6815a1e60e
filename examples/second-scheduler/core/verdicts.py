# SPDX-License-Identifier: Apache-2.0
"""What an event says of a pod that finds no node."""
from __future__ import annotations

import collections
from typing import Mapping

from core.answers import OfNode, Rejected

WHY = {
    "marked": "node(s) were unschedulable",
    "taint": "node(s) had taints that the pod didn't tolerate",
    "cpu": "Insufficient cpu",
    "memory": "Insufficient memory",
    "pods": "Too many pods",
    "plugin": "node(s) were rejected by a plugin",
    "final": "node(s) were rejected by a plugin for good",
}
RULES = ("plugin", "final")
# How many bytes an event's message has at most ("Event v1 events.k8s.io", note): of what rules say
# of themselves that is left out which makes it longer, so that it pushes out no number.
LONGEST = 1024
# Of each rule, by its name, what it says of its codes.
Reasons = Mapping[str, Mapping[int, str]]


def is_of_rules(counts: Mapping[str, int]) -> bool:
    """Whether a rule rejected any node."""
    return any(counts.get(why) for why in RULES)


def rejected_by(it: Rejected) -> str:
    return f"node(s) were rejected by {it.rule}{' for good' if it.is_for_good else ''}"


def said_of_no_node(counts: Mapping[str, int], nodes: Mapping[str, OfNode] | None = None, whose: str = "", reasons: Reasons | None = None) -> str:
    """The message of kube-scheduler's kind; with what `explain` says of each node it names the rules, and what each says of itself. `whose` says
    which nodes were looked at, where these aren't all."""
    some = [(n, WHY[why], "") for why, n in counts.items() if n and (nodes is None or why not in RULES)]
    named = collections.Counter(it for it in (nodes or {}).values() if isinstance(it, Rejected))
    some += [(n, rejected_by(it), (reasons or {}).get(it.rule, {}).get(it.code, "")) for it, n in named.items()]
    some.sort(key=lambda it: it[1])
    start, end = f"0/{sum(n for n, _, _ in some)} nodes are available{whose}: ", "."
    return start + (", ".join(with_reasons(some, LONGEST - bytes_of(start + end))) or "there are none") + end


def bytes_of(text: str) -> int:
    return len(text.encode())


def with_reasons(some: list[tuple[int, str, str]], room: int) -> list[str]:
    """How many nodes are rejected by what, and behind it in brackets why, where that is said and the whole stays within the room."""
    parts = [f"{n} {what}" for n, what, _ in some]
    room -= bytes_of(", ".join(parts))
    for i, (_, _, reason) in enumerate(some):
        said = f" ({reason})"
        if reason and bytes_of(said) <= room:
            room -= bytes_of(said)
            parts[i] += said
    return parts
