# SPDX-License-Identifier: Apache-2.0
"""What is kept of the nodes and pods that are heard of: what `wsched translate` says of each, and what whoever asks it tells besides.

The latter are labels: of a pod the entries by which the rule node_affinity is told what it asks of a node, and of a node with many those
that pods ask for. A pod that has a node is always counted, and one that waits and asks for what nobody knows is left alone.
"""
from __future__ import annotations

import functools
import itertools
import json
import sys
from typing import NamedTuple, Sequence

from tools.translating import EVERYTHING, Answer, Json, Size, Translator, as_json, fields_of, size_of

from state import affinity
from state.affinity import LABELS, NAME, Asked, NodeLabels, Volumes
from state.heard import CONTAINERS, ENDED, OF_CONTAINERS, Own, created_at, unscheduled, with_labels, without
from state.rule_labels import Named

# All of a pod's own data that matters to its line, but for its name.
OF_PODS = ("deletionTimestamp",)
# What the status of a pod on a node says of what it holds there, which may be more than it asks for
# by now; of its containers, and in all.
STATUSES, HELD = ("containerStatuses", "initContainerStatuses", "ephemeralContainerStatuses"), ("allocatedResources", "resources")


class SeenNode(NamedTuple):
    """All that is kept of a node. `row` is its line's fields behind the version, as JSON, or None where no line can say it."""

    name: str
    uid: str
    row: str | None
    room: tuple[int, int, int]
    left_out: tuple[str, ...]
    # its labels, where a row has no room for all of them
    many: tuple[tuple[str, str], ...] = ()


class SeenPod(NamedTuple):
    """All that is kept of a pod: what it asks for, and of one that waits for a node also its line's fields behind uid and version, as
    JSON, or None where it can't be told. `left_out` says why, or names what it can do without."""

    namespace: str
    name: str
    uid: str
    node: str | None
    size: Size
    is_whole: bool
    row: str | None = None
    priority: int = 0
    left_out: tuple[str, ...] = ()
    # the reason and the message of its condition PodScheduled, where that is False
    unscheduled: tuple[str, str] | None = None
    is_leaving: bool = False
    # the labels of nodes that it asks for
    keys: frozenset[str] = frozenset()
    # when it was made, by the API server's clock, in seconds
    created: float = 0.0

    @property
    def key(self) -> str:
        return f"{self.namespace}/{self.name}"


class Reader:
    """Reads objects as they are heard, many at a time where many are."""

    def __init__(self, program: str, scheduler: str, named: Named = Named()) -> None:
        self.translator, self.scheduler, self.named = Translator(program, scheduler), scheduler, named

    def nodes(self, things: Sequence[Json], labels: NodeLabels) -> list[SeenNode]:
        parts = [parts_of(it) for it in things]
        answers = iter(self.translator.ask([*itertools.chain.from_iterable(parts)]))
        return [seen_node(it, [next(answers) for _ in some], labels) for it, some in zip(things, parts)]

    def pods(self, things: Sequence[Json], there: Volumes | None = None) -> dict[str, SeenPod]:
        """By their uids, without those that another scheduler has to place and those that have ended. `there` is None where no rule is
        asked about selectors, affinity and volumes."""
        mine = [it for it in things if self.is_told(it)]
        given = [affinity.asked(it, there) if there and not it["spec"].get("nodeName") else None for it in mine]
        asks = [with_labels(it, own or Asked(), self.named) for it, own in zip(mine, given)]
        things = [short(affinity.without(it) if there and not it["spec"].get("nodeName") else it, own.labels) for it, own in zip(mine, asks)]
        return {it["metadata"]["uid"]: seen_pod(it, own, answer) for it, own, answer in zip(mine, asks, self.translator.ask(things))}

    def is_told(self, pod: Json) -> bool:
        spec = pod["spec"]
        is_mine = spec.get("nodeName") or (spec.get("schedulerName") or "default-scheduler") == self.scheduler
        return bool(is_mine) and (pod.get("status") or {}).get("phase") not in ENDED


# Nodes.


def parts_of(node: Json) -> list[Json]:
    """The node, as often as it takes to ask of all its labels, since a line has some of them."""
    name, labels = node["metadata"]["name"], sorted((node["metadata"].get("labels") or {}).items())
    said = {"kind": "Node", "spec": node.get("spec"), "status": {"allocatable": (node.get("status") or {}).get("allocatable")}}
    some = [dict(labels[k : k + LABELS]) for k in range(0, len(labels), LABELS)]
    return [{**said, "metadata": {"name": name, "labels": it}} for it in some or [{}]]


def seen_node(node: Json, answers: Sequence[Answer], labels: NodeLabels) -> SeenNode:
    name, lines = sys.intern(node["metadata"]["name"]), [it.line for it in answers if it.line]
    uid, left_out = node["metadata"].get("uid", name), tuple(dict.fromkeys(it for one in answers for it in one.left_out))
    if len(lines) < len(answers):
        return SeenNode(name, uid, None, (0, 0, 0), left_out)
    own = [label for line in lines for label in line["labels"]]
    if why := labels.why_not([key for key, _ in own]):
        return SeenNode(name, uid, None, (0, 0, 0), (*left_out, why))
    kept, gone = labels.kept(own)
    row, many = as_json({**fields_of(lines[0]), "labels": kept}), tuple((key, value) for key, value in own) if gone else ()
    return SeenNode(name, uid, row, (*size_of(lines[0]), lines[0]["pods"]), (*left_out, *gone), many)


def row_of(seen: SeenNode, labels: NodeLabels) -> str | None:
    """Its row as it is to be told now: of many labels those stay that are asked for."""
    if not seen.row or not seen.many:
        return seen.row
    return as_json({**json.loads(f"{{{seen.row}}}"), "labels": labels.kept([[*it] for it in seen.many])[0]})


# Pods.


def short(pod: Json, labels: Json) -> Json:
    """A pod that hasn't ended, with these labels, without what no line tells of: so most pods are equal to what they were before, and to their
    like."""
    meta: Json = {key: pod["metadata"][key] for key in OF_PODS if key in pod["metadata"]} | ({"labels": labels} if labels else {})
    spec = dict(pod["spec"])
    for some in CONTAINERS:
        if isinstance(spec.get(some), list):
            spec[some] = [without(it, OF_CONTAINERS) for it in spec[some]]
    if spec.get("volumes"):
        # (each pod has one of its own name, with the token of its account)
        spec["volumes"] = [it for it in spec["volumes"] if "projected" not in it]
    said = {"kind": "Pod", "metadata": {"uid": "a-pod", **meta}, "spec": spec}
    held = held_by(pod) if spec.get("nodeName") else {}
    return {**said, "status": held} if held else said


def held_by(pod: Json) -> Json:
    """What a pod's status says of what it holds, where it says anything."""
    status = pod.get("status") or {}
    held = {key: status[key] for key in HELD if status.get(key)}
    for some in STATUSES:
        listed = [it for it in status.get(some) or [] if isinstance(it, dict)]
        if found := [{key: it[key] for key in ("name", *HELD) if key in it} for it in listed if any(it.get(key) for key in HELD)]:
            held[some] = found
    return held


def seen_pod(pod: Json, own: Own, answer: Answer) -> SeenPod:
    meta, spec, line, asks = pod["metadata"], pod["spec"], answer.line, own.asks
    who, size = (sys.intern(meta["namespace"]), meta["name"], meta["uid"]), one_size(*size_of(line)) if line else (0, 0)
    if spec.get("nodeName"):
        return on_node(SeenPod(*who, sys.intern(spec["nodeName"]), size, answer.is_whole, left_out=answer.left_out), answer)
    waits = SeenPod(*who, None, size, True, None, spec.get("priority") or 0, (), unscheduled(pod), bool(meta.get("deletionTimestamp")))
    waits = waits._replace(created=created_at(meta))
    if asks.why or not line:
        return waits._replace(left_out=(*asks.why, *(() if line else answer.left_out)))
    labels, _ = affinity.with_own(asks.entries, line["labels"])
    row = as_json({**fields_of(line), "labels": labels})
    return waits._replace(row=row, left_out=(*asks.left_out, *answer.left_out, *own.gone), keys=asks.keys)


def on_node(seen: SeenPod, answer: Answer) -> SeenPod:
    """A pod that has a node and no line counts as everything there. (Where the node's name is none of a script's, the node has no line either.)"""
    if answer.line or not NAME.fullmatch(seen.node or ""):
        return seen._replace(is_whole=answer.is_whole or not answer.line)
    return seen._replace(size=one_size(*EVERYTHING), is_whole=False, left_out=answer.left_out or ("no line says it",))


@functools.lru_cache(maxsize=8192)
def one_size(cpu: int, memory: int) -> Size:
    """(of thousands of pods of one size, one pair is kept)"""
    return cpu, memory
